//! Document 01's runs on the bench, A to J, and its cases of laying out, in the script language.

mod common;
use common::expect;

const A: &str = "new 8 3\nins 10 1\nins 20 2\nins 30 3\n";
const A_SAID: &str = "ok\nnew 0\nnew 1\nnew 2\n";

/// Run A, then more.
fn after_a(more: &str, answers: &str) {
    after(A, A_SAID, more, answers);
}

fn after(start: &str, said: &str, more: &str, answers: &str) {
    expect(&format!("{start}{more}\ncheck\n"), &format!("{said}{answers}\nsound\n"));
}

#[test]
fn a() {
    after_a(
        "dump",
        "dump 3 root 1 first 0 last 2
        0 10 1 1 1 - - - 1
        1 20 2 2 - 0 2 0 2
        2 30 3 1 1 - - 1 -",
    );
}

#[test]
fn a_listed_whole() {
    after_a(
        "list",
        "live 3 free 5 retired 0
        10 1 0 1 1
        20 2 1 1 2
        30 3 2 1 1",
    );
}

#[test]
fn b_is_the_same_tree() {
    after(
        "new 8 3\n",
        "ok\n",
        "ins 10 1\nins 30 2\nins 20 3\ndump",
        "new 0\nnew 1\nnew 2
        dump 3 root 2 first 0 last 1
        0 10 1 1 2 - - - 2
        2 20 3 2 - 0 1 0 1
        1 30 2 1 2 - - 2 -",
    );
}

#[test]
fn c() {
    after_a(
        "ins 40 4\nlist",
        "new 3
        live 4 free 4 retired 0
        10 1 0 1 1
        20 2 1 1 3
        30 3 2 1 2
        40 4 3 1 1",
    );
}

#[test]
fn d_and_e() {
    after_a(
        "rem 1\ndump\nrem 0\ndump",
        "rem 1 20 2
        dump 2 root 0 first 0 last 2
        0 10 1 2 - - 2 - 2
        2 30 3 1 0 - - 0 -
        rem 0 10 1
        dump 1 root 2 first 2 last 2
        2 30 3 1 - - - - -",
    );
}

#[test]
fn f_and_g() {
    after_a(
        "ins 40 4\nrem 0\ndump\nrem 1\ndump",
        "new 3\nrem 0 10 1
        dump 3 root 2 first 1 last 3
        1 20 2 1 2 - - - 2
        2 30 3 3 - 1 3 1 3
        3 40 4 1 2 - - 2 -
        rem 1 20 2
        dump 2 root 2 first 2 last 3
        2 30 3 2 - - 3 - 3
        3 40 4 1 2 - - 2 -",
    );
}

#[test]
fn h() {
    expect(
        "new 1 1\nins 5 1\nrem 0\npeek 5\nins 5 2\ndump\nlist\nfirst\nfind 5\nget 0\ncheck",
        "ok\nnew 0\nrem 0 5 1 overflow\nerr 1\nerr 1\ndump 0 root - first - last -
        live 0 free 0 retired 1\nend\nempty 0\nerr 3\nsound",
    );
}

#[test]
fn i() {
    expect(
        "new 1 3\nins 5 1\npeek 5\nins 5 2\npeek 6\nins 6 3\nlist\ncheck",
        "ok\nnew 0\nrep 0\nrep 0 1\nerr 1\nerr 1\nlive 1 free 0 retired 0\n5 2 0 1 1\nsound",
    );
}

#[test]
fn j() {
    expect(
        "new 8 3\npman 0 0 5\nman 0 0 5 1\nman 0 -1 5 1\nman 0 1 5 1\npemp 5\nemp 5 1\nlist\ncheck",
        "ok\nerr 2\nerr 2\nerr 2\nerr 2\nnew\nnew 0\nlive 1 free 7 retired 0\n5 1 0 1 1\nsound",
    );
}

#[test]
fn laying_out() {
    expect(
        "new 0 3\nnew 1025 3\nnew 1 0\nnew 1 4294967296\ncheck\nnew 1 1\nnew 1024 4294967295\nlist",
        "err 4\nerr 4\nerr 4\nerr 4\nunsound\nok\nok\nlive 0 free 1024 retired 0",
    );
}
