//! Single paths through the walk tree, each with its number as old and as new and the count of its walk.

use super::probes::{self, joined, Probe, Table};
use super::{WalkCase, WalkCases};
use crate::cases::random::Random;
use crate::cases::trees::for_walks::{
    walk_tree, CLOSED, D, E, GROUP, HANDLES, LONGEST_NAME, ON_D, ON_FILE, ON_PRIVATE, ON_ROOT, PQ, PRIVATE, ROOT,
    SEARCH_D, SEARCH_FILE, SEARCH_PRIVATE, SEARCH_ROOT, SEARCH_SYMLINK, X,
};
use crate::model::numbers::{DONE, EACCES, EBADF, EBUSY, EINVAL, ELOOP, ENAMETOOLONG, ENOENT, ENOTDIR};
use crate::model::permission::Credentials;
use crate::model::request::CURRENT;

fn before_the_walk() -> Table {
    let mut table = Table::new("before the walk");
    table.all(ENOENT, 0, &[b""]);
    table.all(EBUSY, 0, &[b"/", b"//", b"///", &[b'/'; 254], &[b'/'; 255]]);
    let long = joined(&[("/", 255), ("f", 1)]);
    let dotted = joined(&[("./", 127), ("/f", 1)]);
    table.all(ENAMETOOLONG, 0, &[&[b'/'; 256], &[b'a'; 256], &[b'.'; 600], &long, &dotted]);
    for handle in [CLOSED, HANDLES, HANDLES + 1, 16, 127, 128, 254] {
        table.at(handle, EBADF, 0, &[b"f", b"./f", b"nope", &[b'a'; 255]]);
        table.at(handle, ENOENT, 0, &[b""]);
        table.at(handle, EBUSY, 0, &[b"/"]);
        table.at(handle, ENAMETOOLONG, 0, &[&[b'a'; 256]]);
        table.at(handle, DONE, 1, &[b"/f"]);
        table.at(handle, DONE, 2, &[b"/d/f"]);
    }
    table
}

fn ways() -> Table {
    let mut table = Table::new("ways through the tree");
    table.all(DONE, 1, &[b"f", b"/f", b"//f", b"d", b"d/", b"d//", b"/d///", b"p/", b"/p", LONGEST_NAME]);
    table.all(DONE, 2, &[b"d/f", b"/d/f", b"//d//f", b"./f", b"/./f", b"../f", b"/../f", b"d/e/", b"d///e", b"d/x"]);
    table.all(DONE, 3, &[b"d/e/f", b"d/../f", b"d/./f", b"././f", b"/../../d", b"..//..//d"]);
    table.all(DONE, 4, &[b"d/../d/f", b"d/e/../f", b"d/e/../x", b"..//..//d/f", b"./.././d/", b"d/./e/f"]);
    table.all(DONE, 5, &[b"d/e/../../x", b"/d/e/../../f", b"x/.././d/f"]);
    table.all(DONE, 128, &[&joined(&[("./", 127), ("f", 1)])]);
    table.all(DONE, 1, &[&joined(&[("/", 254), ("f", 1)]), &joined(&[("d", 1), ("/", 254)])]);
    table.at(ON_D, DONE, 1, &[b"f", b"e", b"e/", b"/f", b"/x"]);
    table.at(ON_D, DONE, 2, &[b"e/f", b"./f", b"../f", b"../x/"]);
    table.at(SEARCH_D, DONE, 1, &[b"f", b"x", b"e//", b"/f"]);
    table.at(SEARCH_D, DONE, 3, &[b"../d/f", b".//e/f", b"./../f"]);
    table.at(ON_ROOT, DONE, 2, &[b"d/f", b"../f", b"./d"]);
    table.at(SEARCH_ROOT, DONE, 2, &[b"d/f", b"../f", b"./d"]);
    table
}

fn not_directories() -> Table {
    let mut table = Table::new("not a directory");
    let long = joined(&[("f/", 1), ("c", 25)]);
    table.all(ENOTDIR, 2, &[b"f/x", b"/f/x", b"f//x/", b"f/.", b"f/..", b"f/./x", b"f/../x", b"f/x/y/z", &long]);
    table.all(ENOTDIR, 3, &[b"d/f/x", b"/d/f/x/y", b"d/f/.", b"./f/..", b"tofile/x", b"tofile/.", b"absfile/x"]);
    table.all(ENOTDIR, 3, &[b"tofiles/x", b"tofiles/..", b"tofiles/./x"]);
    for handle in [ON_FILE, SEARCH_FILE, SEARCH_SYMLINK] {
        table.at(handle, ENOTDIR, 1, &[b"x", b".", b"..", b"./f", b"../f", b"x/y", b"f/", &[b'c'; 25]]);
        table.at(handle, DONE, 1, &[b"/f", b"/d/"]);
    }
    table
}

fn search_denied() -> Table {
    let mut table = Table::new("search denied");
    let long = joined(&[("p/", 1), ("c", 25)]);
    table.all(
        EACCES,
        2,
        &[b"p/f", b"/p/f", b"p/q/z", b"p/.", b"p/..", b"p/../f", b"p/./f", b"p/nope", b"p//f/", &long],
    );
    table.all(EACCES, 3, &[b"private/f", b"through/z", b"./p/f"]);
    table.all(EACCES, 4, &[b"d/../p/f", b"./private/f"]);
    table.at(ON_PRIVATE, EACCES, 1, &[b"f", b"nope", b".", b"..", b"../f", b"./f", b"q/z", b"k/z", &[b'c'; 25]]);
    table.at(ON_PRIVATE, EACCES, 2, &[b"/p/f", b"//p/f"]);
    table
}

/// The first component alone is not asked for, whatever it is.
fn search_granted() -> Table {
    let mut table = Table::new("opened for search");
    table.at(SEARCH_PRIVATE, DONE, 1, &[b"f", b"q", b"q/", b"k", b"ka"]);
    table.at(SEARCH_PRIVATE, DONE, 2, &[b"../f", b"..//x/"]);
    table.missing(SEARCH_PRIVATE, 1, &[b"nope", b"nope/"]);
    table.missing(SEARCH_PRIVATE, 2, &[b"q/nope"]);
    table.at(SEARCH_PRIVATE, EACCES, 2, &[b"./f", b".//f", b"./.", b"./..", b"./../f", b"/p/f", b"//p/f"]);
    table.at(SEARCH_PRIVATE, EACCES, 3, &[b"q/../f", b"../p/f", b"q/../nope", b"q/../."]);
    table.at(SEARCH_PRIVATE, EACCES, 2, &[b"k/z", b"k/..", b"ku/f"]);
    table.at(SEARCH_PRIVATE, DONE, 3, &[b"ka/f"]);
    table.at(SEARCH_PRIVATE, DONE, 1, &[b"ku", b"/s"]);
    table.at(SEARCH_PRIVATE, EINVAL, 1, &[b".", b"..", b"./", b"..//"]);
    table.at(SEARCH_PRIVATE, ENAMETOOLONG, 1, &[&[b'c'; 25]]);
    table.at(SEARCH_PRIVATE, ENOTDIR, 1, &[b"f/", b"k/", b"ka//"]);
    table.at(SEARCH_PRIVATE, ENOTDIR, 2, &[b"f/x", b"f/.."]);
    table.at(SEARCH_PRIVATE, ENOENT, 1, &[b"nope/x"]);
    table
}

fn long_components() -> Table {
    let mut table = Table::new("long components");
    let longest = String::from_utf8_lossy(LONGEST_NAME).into_owned();
    let path = |parts: &[&str]| parts.concat().into_bytes();
    table.all(DONE, 2, &[&path(&[&longest, "/", &longest]), &path(&["/", &longest, "//", &longest])]);
    table.all(ENAMETOOLONG, 1, &[&[b'c'; 25], &[b'n'; 25], &[b'.'; 25], &[b'c'; 255], &path(&[&longest, "n/x"])]);
    table.all(ENAMETOOLONG, 1, &[&path(&[&longest, "c/"]), &path(&["//", &longest, "n"])]);
    table.all(ENAMETOOLONG, 2, &[&path(&["d/", &longest, "c"]), &path(&[&longest, "/", &longest, "n"]), b"toolong/x"]);
    table.all(ENAMETOOLONG, 3, &[&path(&["d/../", &longest, "n/"]), &path(&["././", &longest, "n/.."])]);
    table.missing(CURRENT, 1, &[&[b'c'; 24], &[b'n'; 23], &[b'.'; 24], &path(&[&longest[1..], "/"])]);
    table.missing(CURRENT, 2, &[&path(&["d/", &longest]), &path(&[&longest, "/", &longest[1..]])]);
    table
}

fn final_dots() -> Table {
    let mut table = Table::new("final dots");
    table.all(EINVAL, 1, &[b".", b"..", b"./", b"..//", b"/.", b"/..", b"//.//"]);
    table.all(EINVAL, 2, &[b"d/.", b"d/..", b"d/./", b"d/..//", b"./.", b"../..", b"/d/../"]);
    table.all(EINVAL, 3, &[b"d/e/..", b"here/.", b"s/..", b"/here/../", b"d/./."]);
    table.missing(CURRENT, 1, &[b"...", b".c", b"c.", b"..c", b".../"]);
    table
}

fn missing_names() -> Table {
    let mut table = Table::new("missing names");
    table.missing(CURRENT, 1, &[b"nope", b"/nope", b"nope/", b"nope//", b"F", b"dd2"]);
    table.unportable(CURRENT, 1, &[b" ", b"\xff"]);
    table.missing(CURRENT, 2, &[b"d/nope", b"/d/nope/", b"x/f", b"d/d", b"./nope", b"../nope//"]);
    table.missing(CURRENT, 3, &[b"h/y", b"s/nope", b"/s/nope/", b"d/../nope"]);
    table.all(ENOENT, 1, &[b"nope/x", b"/nope/x/", b"nope/.", b"nope/..", b"nope/../f", b"nope//nope"]);
    table.all(ENOENT, 2, &[b"d/nope/x", b"gone/x", b"gone/.", b"x/f/x"]);
    table
}

fn trailing_slashes() -> Table {
    let mut table = Table::new("trailing slashes");
    table.all(
        ENOTDIR,
        1,
        &[b"f/", b"/f//", b"s/", b"/s///", b"gone/", b"tofile/", b"root/", b"here/", b"loop/", b"abs/"],
    );
    table.all(ENOTDIR, 2, &[b"d/f/", b"d/h//", b"/d/tox/"]);
    table.all(ENOTDIR, 3, &[b"s/f/", b"s/h/", b"d/e/up/"]);
    table.all(DONE, 3, &[b"s/e/", b"/s/x//", b"dd/e/"]);
    table
}

/// A final symlink is left alone; any other is read from the directory that was walked.
fn symlinks() -> Table {
    let mut table = Table::new("symlinks");
    table.all(DONE, 1, &[b"s", b"gone", b"loop", b"root", b"abs", b"ping", b"c1", b"toolong", b"private"]);
    table.all(DONE, 2, &[b"root/f", b"roots/f", b"root//d", b"d/h", b"roots/s"]);
    table.all(DONE, 3, &[b"s/f", b"/s//f", b"here/f", b"root/d/f", b"s/h", b"dd/f", b"z//f"]);
    table.all(DONE, 4, &[b"abs/f", b"many/f", b"many///f", b"/abs/up"]);
    table.all(DONE, 5, &[b"d/e/up/f", b"d/dots/f", b"s/e/../f"]);
    table.all(DONE, 6, &[b"climb/f", b"abs/up/x", b"many/up/f"]);
    table.all(DONE, 34, &[b"wide/f", b"wide/h", b"/wide//e/"]);
    table.missing(CURRENT, 3, &[b"h/y"]);
    table.missing(CURRENT, 4, &[b"d/h/y"]);
    table.missing(CURRENT, 5, &[b"d/tox/y", b"s/h/y", b"d/dots/y"]);
    table.missing(CURRENT, 6, &[b"two/y", b"two/y/"]);
    table.at(ON_D, ENOENT, 1, &[b"s/f"]);
    table.missing(ON_D, 3, &[b"h/y"]);
    table.missing(SEARCH_D, 3, &[b"h/y"]);
    table.at(SEARCH_D, DONE, 4, &[b"../s/f", b"dots/f"]);
    table
}

fn eight_and_nine_symlinks() -> Table {
    let mut table = Table::new("eight and nine symlinks");
    table.all(ELOOP, 41, &[b"loop/x", b"loop/.", b"/loop//x", b"ping/x", b"pong/x"]);
    table.all(DONE, 11, &[b"c1/f"]);
    table.all(ENOENT, 11, &[b"c1/nope/x"]);
    table.all(DONE, 10, &[b"c2/f", b"c2/h", b"c2/e/"]);
    table.all(DONE, 9, &[b"c3/f", b"/c3/x/"]);
    table.all(ENOTDIR, 10, &[b"c2/h/", b"c2/f/"]);
    table.missing(CURRENT, 12, &[b"c2/h/x"]);
    table.all(EINVAL, 12, &[b"c2/h/."]);
    table.missing(CURRENT, 11, &[b"c3/h/y"]);
    table.all(DONE, 17, &[&joined(&[("here/", 8), ("f", 1)]), &joined(&[("here/", 8), ("here", 1)])]);
    table.all(DONE, 19, &[&joined(&[("here/", 9), ("f", 1)])]);
    table.all(EINVAL, 19, &[&joined(&[("here//", 9), (".", 1)])]);
    table.all(ENOTDIR, 17, &[&joined(&[("here/", 9)])]);
    let most = joined(&[("./", 31), ("w/", 8), ("./", 88), ("f", 1)]);
    table.all(DONE, 384, &[&most]);
    table
}

/// A symlink's text and all that follows its name, slashes included; what was read before does not count.
fn joined_lengths() -> Table {
    let mut table = Table::new("joined length");
    let wide = |slashes: usize, name: &str| joined(&[("wide", 1), ("/", slashes), (name, 1)]);
    table.all(DONE, 34, &[&wide(190, "f"), &wide(191, "f")]);
    table.all(ENOTDIR, 34, &[&wide(190, "f/")]);
    table.all(ENAMETOOLONG, 1, &[&wide(192, "f"), &wide(193, "f"), &wide(250, "f"), &wide(191, "f/")]);
    let via = |slashes: usize| joined(&[("via", 1), ("/", slashes), ("f", 1)]);
    table.all(DONE, 35, &[&via(190), &via(191)]);
    table.all(ENAMETOOLONG, 2, &[&via(192), &via(248)]);
    let behind = |slashes: usize| joined(&[("wide/e", 1), ("/", slashes)]);
    table.all(DONE, 34, &[&behind(189), &behind(190)]);
    table.all(ENAMETOOLONG, 1, &[&behind(191), &behind(249)]);
    table.all(DONE, 3, &[&joined(&[("s", 1), ("/", 253), ("f", 1)]), &joined(&[("z", 1), ("/", 252), ("f", 1)])]);
    table.all(ENAMETOOLONG, 1, &[&joined(&[("z", 1), ("/", 253), ("f", 1)])]);
    table.all(DONE, 84, &[&joined(&[("./", 50), ("wide", 1), ("/", 150), ("f", 1)])]);
    let links = |times: usize, slashes: usize| joined(&[("here/", times), ("wide", 1), ("/", slashes), ("f", 1)]);
    table.all(DONE, 48, &[&links(7, 191)]);
    table.all(ENAMETOOLONG, 15, &[&links(7, 192)]);
    table.all(DONE, 50, &[&links(8, 191)]);
    table.all(ENAMETOOLONG, 17, &[&links(8, 192)]);
    let deep = |slashes: usize| joined(&[("d/tox", 1), ("/", slashes), ("y", 1)]);
    table.missing(CURRENT, 5, &[&deep(246), &deep(249)]);
    table
}

fn probes() -> Vec<Probe> {
    let tables = [
        before_the_walk(),
        ways(),
        not_directories(),
        search_denied(),
        search_granted(),
        long_components(),
        final_dots(),
        missing_names(),
        trailing_slashes(),
        symlinks(),
        eight_and_nine_symlinks(),
        joined_lengths(),
    ];
    tables.into_iter().flat_map(|table| table.probes).collect()
}

fn case(class: &'static str, old: &Probe, new: &Probe) -> WalkCase {
    probes::case(class, &walk_tree(), old, new)
}

/// Every probe as old and as new, beside a path that walks.
pub fn single() -> WalkCases {
    probes::single(&walk_tree(), &probes())
}

/// Any two probes: where both are refused, old's number counts.
pub fn pairs(count: usize, random: &mut Random) -> WalkCases {
    let probes = probes();
    (0..count).map(|_| case("pairs of paths", random.pick(&probes), random.pick(&probes))).collect()
}

/// Any two probes again, for somebody else or from another directory; the model's answer stands.
pub fn pairs_for_others(count: usize, random: &mut Random) -> WalkCases {
    let probes = probes();
    let users = [0, 0, 200, 300, GROUP];
    let mut other = |_| {
        let mut case = case("other users and directories", random.pick(&probes), random.pick(&probes));
        case.request.who = Credentials::new(*random.pick(&users), *random.pick(&[0, GROUP, 200, 300]));
        case.request.current = *random.pick(&[ROOT, D, E, X, PRIVATE, PQ]);
        WalkCase { told: None, ..case }
    };
    (0..count).map(&mut other).collect()
}
