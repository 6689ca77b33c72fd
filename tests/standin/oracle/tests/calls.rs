//! Single calls: replacing, Manual, refusals and their order, generations, lines not in the language.

mod common;
use common::expect;

#[test]
fn replacing_keeps_the_handle_and_the_tree() {
    expect(
        "new 3 9\nins 1 10\nins 2 20\nins 3 30\nins 2 21\nman 1 0 2 22\nget 1\ndump\ncheck",
        "ok\nnew 0\nnew 1\nnew 2\nrep 1 20\nrep 1 21\ngot 2 22\ndump 3 root 1 first 0 last 2
        0 1 10 1 1 - - - 1\n1 2 22 2 - 0 2 0 2\n2 3 30 1 1 - - 1 -\nsound",
    );
}

#[test]
fn manual_good() {
    // 20 has both children, so the new entries go beside its prev and its next.
    expect(
        "new 9 9\nins 10 1\nins 20 2\nins 30 3\npman 1 -1 15\nman 1 -1 15 4\nman 1 1 25 5
        man 0 -1 5 6\nman 2 1 35 7\nman 3 0 15 8\ndump\ncheck",
        "ok\nnew 0\nnew 1\nnew 2\nnew\nnew 3\nnew 4\nnew 5\nnew 6\nrep 3 4
        dump 7 root 1 first 5 last 6
        5 5 6 1 0 - - - 0\n0 10 1 2 1 5 3 5 3\n3 15 8 1 0 - - 0 1\n1 20 2 3 - 0 2 3 4
        4 25 5 1 2 - - 1 2\n2 30 3 2 1 4 6 4 6\n6 35 7 1 2 - - 2 -\nsound",
    );
}

#[test]
fn manual_keys_that_do_not_fit() {
    let bad = ["1 -1 10", "1 -1 20", "1 -1 9", "1 -1 21", "1 1 30", "1 1 20", "1 1 31", "1 1 19"];
    let ends = ["0 -1 10", "0 -1 11", "2 1 30", "2 1 29", "1 0 19", "1 0 21", "7 0 20", "3 1 40"];
    for words in bad.iter().chain(&ends) {
        expect(
            &format!("new 8 9\nins 10 1\nins 20 2\nins 30 3\npman {words}\nman {words} 9\nlist"),
            "ok\nnew 0\nnew 1\nnew 2\nerr 2\nerr 2
            live 3 free 5 retired 0\n10 1 0 1 1\n20 2 1 1 2\n30 3 2 1 1",
        );
    }
}

#[test]
fn manual_at_the_edge_keys() {
    expect(
        "new 8 9\nins -9223372036854775808 1\nman 0 -1 -9223372036854775808 2
        man 0 1 9223372036854775807 2\nman 1 1 9223372036854775807 3\nman 0 1 -1 4\ncheck",
        "ok\nnew 0\nerr 2\nnew 1\nerr 2\nnew 2\nsound",
    );
}

#[test]
fn two_goes_before_one() {
    // The queue is full: what fails its kind is refused 2, what would fit is refused 1.
    expect(
        "new 1 9\nins 10 1\nemp 20 2\npemp 20\nman 0 1 5 2\nman 0 1 20 2\nman 1 1 20 2\nman 0 0 10 2
        ins 10 3\nins 20 4\nlist",
        "ok\nnew 0\nerr 2\nerr 2\nerr 2\nerr 1\nerr 2\nrep 0 1\nrep 0 2\nerr 1
        live 1 free 0 retired 0\n10 3 0 1 1",
    );
}

#[test]
fn a_handle_that_names_no_live_entry() {
    // 0 was removed and its slot is live again as 1; 2 and above were never given.
    for n in ["0", "2", "99", "18446744073709551615"] {
        expect(
            &format!(
                "new 4 9\nins 1 1\nrem 0\nins 1 2\nrem {n}\nget {n}\nnext {n}\nprev {n}
                man {n} 0 1 3\nman {n} 1 9 3\npman {n} -1 0\nget 1\ncheck"
            ),
            "ok\nnew 0\nrem 0 1 1\nnew 1\nerr 3\nerr 3\nerr 3\nerr 3\nerr 2\nerr 2\nerr 2
            got 1 2\nsound",
        );
    }
}

#[test]
fn the_slot_freed_last_is_taken_first() {
    expect(
        "new 4 9\nins 1 1\nins 2 2\nins 3 3\nrem 0\nrem 2\nrem 1\nins 7 7\nins 8 8\nins 9 9\nlist",
        "ok\nnew 0\nnew 1\nnew 2\nrem 0 1 1\nrem 2 3 3\nrem 1 2 2\nnew 3\nnew 4\nnew 5
        live 3 free 1 retired 0\n7 7 1 2 1\n8 8 2 2 2\n9 9 0 2 1",
    );
}

#[test]
fn a_retired_slot_is_not_given_again() {
    expect(
        "new 2 2\nins 1 1\nrem 0\nins 1 1\nrem 1\nins 1 1\nins 2 2\nins 3 3\nlist\ncheck",
        "ok\nnew 0\nrem 0 1 1\nnew 1\nrem 1 1 1 overflow\nnew 2\nerr 1\nerr 1
        live 1 free 0 retired 1\n1 1 1 1 1\nsound",
    );
}

#[test]
fn a_refused_new_changes_nothing() {
    expect(
        "new 2 2\nins 1 1\nnew 0 2\nget 0\nins 2 2\nnew 2 2\nget 0\nins 2 2",
        "ok\nnew 0\nerr 4\ngot 1 1\nnew 1\nok\nerr 3\nnew 0",
    );
}

#[test]
fn before_the_first_new() {
    expect(
        "check\nins 1 1\nemp 1 1\nman 0 0 1 1\npeek 1\npemp 1\npman 0 0 1\nrem 0\nget 0\nfind 1
        next 0\nprev 0\nfirst\nlast\nlist\ndump\nwhat\nins\nnew 9999 1\ncheck",
        &format!("unsound\n{}unknown\nbad line\nerr 4\nunsound", "err 5\n".repeat(15)),
    );
}

#[test]
fn the_count_is_the_path() {
    expect(
        "new 8 9\nfind 1\nins 10 1\nfind 10\nfind 1\nins 20 2\nins 30 3\nins 40 4
        find 20\nfind 40\nfind 45\nfind 35\nfind 25\nfind 15",
        "ok\nempty 0\nnew 0\neq 0 1\nless 0 1\nnew 1\nnew 2\nnew 3
        eq 1 1\neq 3 3\ngreater 3 3\nless 3 3\nless 2 2\ngreater 0 2",
    );
}

#[test]
fn lines_not_in_the_language() {
    use standin::run::run;
    let said =
        |line: &str| run(format!("new 8 9\n{line}\n").as_bytes())["ok\n".len()..].to_string();
    for line in ["", "   ", "\r", "  \r", "#", "# x", "  # x", "#ins 1 1"] {
        assert_eq!(said(line), "", "{line:?}");
    }
    for line in ["x", "INS 1 1", "ins\t1 1", "\tins 1 1", "\r\r", "-", "7", "lin 0 1 2 3"] {
        assert_eq!(said(line), "unknown\n", "{line:?}");
    }
    for line in
        ["ins 1", "ins 1 1 1", "ins 1 -1", "ins +1 1", "ins - 1", "ins 1 1\t", "ins 1 1\r\r"]
    {
        assert_eq!(said(line), "bad line\n", "{line:?}");
    }
    for line in
        [" ins  -0  007 ", "ins 0 7\r", "ins 0 7  \r", "ins -0000 00000000000000000000000007"]
    {
        assert_eq!(said(line), "new 0\n", "{line:?}");
    }
    let long = |n: usize| format!("ins 1 2{}", " ".repeat(n - 7));
    assert_eq!(said(&long(128)), "new 0\n");
    assert_eq!(said(&long(129)), "bad line\n");
    assert_eq!(said(&format!("#{}", "x".repeat(128))), "bad line\n");
    assert_eq!(said("ins 9223372036854775807 18446744073709551615"), "new 0\n");
    assert_eq!(said("ins 9223372036854775808 1"), "bad line\n");
    assert_eq!(said("ins -9223372036854775808 1"), "new 0\n");
    assert_eq!(said("ins -9223372036854775809 1"), "bad line\n");
    assert_eq!(said("ins 1 18446744073709551616"), "bad line\n");
}
