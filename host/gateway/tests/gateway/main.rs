//! The gateway's parts together, in one process: the disk that loses power, damage, a full disk, what a neighbour may cost.
//! `KD_CRASHES` and `KD_SEED` say how often the power goes, and how.

mod crashes;
mod file;
mod growth;
mod hostile;
mod rooms;

use crashes::*;
use growth::*;
use hostile::*;
use rooms::*;

host_tests::tests![
    power_loss_leaves_no_wrong_mark,
    a_disk_that_lies_is_found_out,
    flipped_bits_are_found_and_mended,
    a_save_of_yesterday_is_not_todays,
    a_cut_save_is_no_loss,
    a_full_disk_loses_nothing,
    a_real_disk_follows_no_link,
    a_history_that_grew_is_told_from_one_that_changed,
    an_honest_neighbour_gets_blocks_and_hashes,
    a_request_for_anything_else_is_a_strike,
    a_frame_of_four_gigabytes_ends_it,
    a_flood_of_requests_ends_it,
    a_flood_of_nothing_ends_it,
    replies_that_were_not_asked_for_end_it,
    silence_ends_it,
    a_wrong_block_is_a_ban,
    wrong_hashes_are_a_ban,
    connections_are_bounded,
    a_slow_handshake_is_not_waited_for,
    the_status_port_is_bounded,
];
