//! kd from outside, as a person or a script runs it: every verb, every exit code.

mod cat;
mod explain;
mod extends;
mod folder;
mod habits;
mod hybrid;
mod make;
mod real;
mod root;
mod run;
mod show;
mod store;
mod verify;

use cat::*;
use explain::*;
use extends::*;
use habits::*;
use hybrid::*;
use make::*;
use real::*;
use root::*;
use show::*;
use store::*;
use verify::*;

host_tests::tests![
    show_has_a_page,
    show_has_an_object,
    show_has_a_magnet_link,
    show_reads_standard_input,
    show_escapes_names,
    show_refuses_by_number,
    show_answers_as_the_reference_does,
    show_bears_hostile_shapes,
    verify_finds_all_right,
    verify_finds_the_files,
    verify_tells_what_is_wrong,
    verify_tells_it_as_objects,
    verify_says_the_same_with_more_threads,
    verify_reads_no_pipes_and_folders,
    verify_stays_below_its_place,
    verify_judges_last_pieces,
    cat_writes_what_may_be_believed,
    cat_stops_at_the_first_wrong_piece,
    cat_reads_standard_input,
    cat_has_no_such_file,
    make_and_verify,
    make_goes_by_standard_input_and_output,
    make_leaves_out_links_and_itself,
    make_is_refused_by_number,
    make_writes_whole_or_not_at_all,
    make_has_the_info_hash_of_libtorrent,
    root_is_that_of_the_torrent,
    root_has_the_form_of_sha256sum,
    root_goes_on_after_a_file_that_is_missing,
    store_is_shown_and_checked,
    store_is_repaired_elsewhere,
    extends_finds_what_was_appended,
    extends_finds_what_got_younger,
    explain_has_the_numbers,
    real_torrents_are_shown,
    real_torrents_are_verified,
    a_hybrid_is_shown,
    a_hybrid_is_judged_by_both_halves,
    a_hybrid_in_any_manner,
    halves_that_differ_are_refused,
    usage_is_2,
    every_verb_has_help,
    a_pipe_closed_early_is_141,
    a_full_device_is_2,
    a_terminal_shows_progress_and_colours,
    completions_complete,
];
