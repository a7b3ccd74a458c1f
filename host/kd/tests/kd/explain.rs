use crate::run::kd;

pub fn explain_has_the_numbers() {
    let two = concat!(
        " 0  done\n    All is right: what was judged may be believed.\n",
        " 7  not what is held\n    Wrong bytes: their hash is not the one held. Fetch them anew, from somebody else.\n"
    );
    kd(&["explain", "7", "0"]).assert(0, two, "");
    let all = kd(&["explain", "--json"]);
    let numbers: Vec<_> = all.objects().iter().filter_map(|object| object["number"].as_u64()).collect();
    assert!(all.code == 0 && numbers.is_sorted() && numbers.len() > 24, "{numbers:?}");
    kd(&["explain", "13"]).assert(2, "", "kd: the library has no number 13; kd explain lists them\n");
    assert_eq!(kd(&["explain", "x"]).code, 2);
}
