//! Plans in files and on standard input and output: written whole or not at all, read as bytes or text.
mod common;

use common::{run, step_words, steps, stored_files, Folder, Json};
use reference::limits::{NUMBER_BITS, PLAN_STEPS, VALUE_BITS};
use std::fs;
use std::os::unix::fs::{symlink, FileTypeExt, PermissionsExt};
use std::process::Command;

/// The plan for 3 by binary.
fn three() -> Vec<u8> {
    steps(&[[0, 0, 0], [0, 1, 0]])
}

const WRITTEN: &str = "0x03 by binary: 1 doublings, 1 additions, 0 subtractions; written to ";
const ACCEPTED: &str = "0x03: accepted: 1 doublings, 1 additions, 0 subtractions; at most 2 bits\n";

#[test]
fn written_and_checked() {
    let folder = Folder::new();
    for name in [
        "three.plan",
        "a b.plan",
        "refused 6",
        "to",
        "./here",
        "-x",
        &"n".repeat(255),
    ] {
        let ended = run(&folder, &["plan", "3", "1", "to", name], b"");
        let shown = match name.len() > 80 {
            true => format!("{}...", "n".repeat(80)),
            false => name.to_string(),
        };
        assert_eq!(ended.text(), format!("{}{}\n", WRITTEN, shown));
        assert_eq!(ended.status, 0);
        assert_eq!(folder.read(name), three());
        assert_eq!(run(&folder, &["check", "3", name], b"").text(), ACCEPTED);
    }
    assert_eq!(folder.names().len(), 7);
}

/// No byte of a name reaches a terminal as a control character, and an answer stays one line.
#[test]
fn names_with_control_characters() {
    let folder = Folder::new();
    let ended = run(&folder, &["plan", "3", "1", "to", "x\n2: refused\x1b[2J"], b"");
    assert_eq!(ended.text(), format!("{}x\\n2: refused\\u{{1b}}[2J\n", WRITTEN));
    assert_eq!(folder.names(), ["x\n2: refused\x1b[2J"]);
}

#[test]
fn an_existing_file_is_replaced_with_force_alone() {
    let folder = Folder::new();
    folder.write("old", b"old");
    let ended = run(&folder, &["plan", "3", "1", "to", "old"], b"");
    assert_eq!((ended.status, ended.text().as_str()), (3, ""));
    assert_eq!(
        ended.err,
        "lesmutka: cannot write old: it is there already; --force replaces it\n"
    );
    assert_eq!(folder.read("old"), b"old");
    let ended = run(&folder, &["plan", "3", "1", "to", "old", "--force"], b"");
    assert_eq!(ended.status, 0);
    assert_eq!(folder.read("old"), three());
    // In a batch, for one line or for all.
    folder.write("old", b"old");
    let lines = b"plan 3 1 to old --force\nplan 1 1 to old\nrecode 1\n";
    assert_eq!(run(&folder, &["-"], lines).status, 3);
    assert_eq!(folder.read("old"), three());
    assert_eq!(run(&folder, &["-", "--force"], lines).status, 0);
    assert_eq!(folder.read("old"), b"");
    assert_eq!(folder.names(), ["old"]);
}

/// The mode follows the umask, also where a file with another mode is replaced.
#[test]
fn modes() {
    let folder = Folder::new();
    for (umask, mode) in [("022", 0o644), ("077", 0o600), ("002", 0o664)] {
        for force in [false, true] {
            let name = format!("{}-{}", umask, force);
            if force {
                folder.write(&name, b"old");
                fs::set_permissions(folder.file(&name), fs::Permissions::from_mode(0o700)).expect("a mode");
            }
            let ended = common::ended(
                Command::new("sh")
                    .args(["-c", "umask \"$1\"; exec \"$2\" plan 3 1 to \"$3\" $4", "sh", umask])
                    .args([
                        env!("CARGO_BIN_EXE_lesmutka"),
                        &name,
                        if force { "--force" } else { "" },
                    ])
                    .current_dir(folder.path()),
                b"",
            );
            assert_eq!(ended.status, 0, "{}", ended.err);
            let written = fs::metadata(folder.file(&name)).expect("the file").permissions().mode();
            assert_eq!(written & 0o777, mode, "umask {}", umask);
        }
    }
}

/// Of what is refused or fails nothing is written, and no other file is left.
#[test]
fn nothing_is_left_of_a_failure() {
    let folder = Folder::new();
    fs::create_dir(folder.file("folder")).expect("a folder");
    folder.write("file", b"old");
    assert!(Command::new("mkfifo")
        .arg(folder.file("pipe"))
        .status()
        .expect("mkfifo")
        .success());
    symlink("missing/x", folder.file("nowhere")).expect("a link");
    let before = folder.names();
    for (name, status) in [
        ("folder", 3),
        ("missing/x", 3),
        ("file/x", 3),
        ("pipe", 3),
        ("nowhere", 3),
        ("/dev/null", 3),
        (&"n".repeat(256), 3),
    ] {
        for force in [&[][..], &["--force"]] {
            let words = [&["plan", "3", "1", "to", name], force].concat();
            let ended = run(&folder, &words, b"");
            assert_eq!((ended.status, ended.text().as_str()), (status, ""), "{}", name);
            assert!(ended.err.starts_with("lesmutka: cannot write "), "{}", ended.err);
            assert_eq!(ended.err.lines().count(), 1);
        }
    }
    for words in [
        &["plan", "0", "1", "to", "file", "--force"][..],
        &["plan", "0", "1", "to", "new"],
    ] {
        let ended = run(&folder, words, b"");
        assert_eq!(
            (ended.status, ended.text().as_str()),
            (1, "0 by binary: refused 2, place 0: the number is zero\n")
        );
    }
    assert_eq!(folder.names(), before);
    assert_eq!(folder.read("file"), b"old");
    assert_eq!(fs::read_dir(folder.file("folder")).expect("the folder").count(), 0);
    assert!(fs::metadata(folder.file("pipe"))
        .expect("the pipe")
        .file_type()
        .is_fifo());
}

/// A file system that is full: `/dev/shm` or another is not at hand, so a limit on the size of files
/// stands for it.
#[test]
fn a_file_that_cannot_be_written_whole() {
    let folder = Folder::new();
    folder.write("old", b"old");
    for (name, force) in [("new", ""), ("old", "--force")] {
        let ended = common::ended(
            Command::new("sh")
                .args(["-c", "ulimit -f 0; exec \"$1\" plan 3 1 to \"$2\" $3", "sh"])
                .args([env!("CARGO_BIN_EXE_lesmutka"), name, force])
                .current_dir(folder.path()),
            b"",
        );
        assert_eq!((ended.status, ended.text().as_str()), (3, ""));
        assert!(
            ended.err.starts_with(&format!("lesmutka: cannot write {}: ", name)),
            "{}",
            ended.err
        );
    }
    assert_eq!(folder.names(), ["old"]);
    assert_eq!(folder.read("old"), b"old");
}

/// A name that is no UTF-8 can be told apart in JSON: its bytes are lone surrogates.
#[test]
fn names_that_are_no_text() {
    use std::ffi::OsStr;
    use std::os::unix::ffi::OsStrExt;
    let folder = Folder::new();
    let mut command = common::program();
    command
        .args(["plan", "3", "1", "--json", "to"])
        .arg(OsStr::from_bytes(b"a\xff\xfe\"\xc3\xa9"));
    let ended = common::ended(command.current_dir(folder.path()), b"");
    assert!(
        ended.text().contains("\"file\":\"a\\udcff\\udcfe\\\"\u{e9}\""),
        "{}",
        ended.text()
    );
}

/// A signal while a file is written: the file is there whole, or not at all, and no other is left.
#[test]
fn signals() {
    use std::io::Write;
    let folder = Folder::new();
    for i in 0..20 {
        let mut child = common::started(common::program().args(["batch", "--force"]).current_dir(folder.path()));
        let mut stdin = child.stdin.take().expect("standard input");
        let writer = std::thread::spawn(move || {
            let _ = stdin.write_all("plan 3 1 to x\n".repeat(5_000).as_bytes());
        });
        std::thread::sleep(std::time::Duration::from_millis(10 + i));
        // Those that a shell or nohup may have set to be ignored are left out.
        let name = ["-TERM", "-USR1", "-ALRM"][i as usize % 3];
        let sent = Command::new("kill")
            .args([name, &child.id().to_string()])
            .status()
            .expect("kill");
        assert!(sent.success());
        assert_eq!(
            child.wait().expect("the program ends").code(),
            None,
            "ended by the signal"
        );
        writer.join().expect("its input was written");
        assert!(folder.names().iter().all(|name| name == "x"), "{:?}", folder.names());
    }
    assert_eq!(folder.read("x"), three());
}

/// A link stays, and what it points to is written.
#[test]
fn links() {
    let folder = Folder::new();
    folder.write("file", b"old");
    symlink("file", folder.file("link")).expect("a link");
    assert_eq!(run(&folder, &["plan", "3", "1", "to", "link"], b"").status, 3);
    assert_eq!(
        run(&folder, &["plan", "3", "1", "to", "link", "--force"], b"").status,
        0
    );
    assert_eq!(folder.read("file"), three());
    assert!(fs::symlink_metadata(folder.file("link"))
        .expect("the link")
        .file_type()
        .is_symlink());
}

#[test]
fn standard_input_and_output() {
    let folder = Folder::new();
    let ended = run(&folder, &["plan", "3", "1", "to", "-"], b"");
    assert_eq!((ended.status, ended.out, ended.err.as_str()), (0, three(), ""));
    assert_eq!(run(&folder, &["check", "3", "-"], &three()).text(), ACCEPTED);
    let ended = run(&folder, &["plan", "0", "1", "to", "-"], b"");
    assert_eq!((ended.status, ended.text().as_str()), (1, ""));
    assert_eq!(ended.err, "0 by binary: refused 2, place 0: the number is zero\n");
    assert_eq!(folder.names(), Vec::<String>::new());
}

/// What `plan` prints is taken back by `check` and `show`, in words and as JSON, alone and in a batch.
#[test]
fn what_plan_prints_is_taken_back() {
    let folder = Folder::new();
    for number in [
        "1",
        "3",
        "43",
        "0xffffffffffffffffffffffffffffffffffffffffffffffffffffffffffffffff",
    ] {
        for method in ["binary", "fixed 4", "sliding 4", "naf", "wide-naf 5", "modified-naf"] {
            let line = format!("plan {} {}", number, method);
            let words: Vec<&str> = line.split(' ').collect();
            let printed = [
                run(&folder, &words, b""),
                run(&folder, &[&words[..], &["--json"]].concat(), b""),
                run(&folder, &["-"], line.as_bytes()),
                run(&folder, &["-", "--json"], line.as_bytes()),
            ];
            for printed in printed {
                let ended = run(&folder, &["check", number, "-"], &printed.out);
                assert_eq!(ended.status, 0, "{}: {}{}", line, ended.text(), ended.err);
                assert!(ended.text().contains(": accepted: "));
                let shown = run(&folder, &["show", "-"], &printed.out);
                assert_eq!(shown.status, 0);
                assert!(shown.text().contains("ends at 0x"));
            }
        }
    }
}

const NO_OBJECT: &str = "no object of a plan, which has one list of steps";

#[test]
fn plans_as_text() {
    let folder = Folder::new();
    for text in [
        "add(0,0) add(1,0)",
        "add(0,0)\r\nadd(1,0)\r\n",
        "\u{feff}# the plan for 3\nadd(0,0) # two\n\n  add(1,0)\n",
        "add(0,0) # two\radd(1,0)\r",
        "steps: add(0,0) add(1,0)",
        "{\"steps\":[\"add(0,0)\",\"add(1,0)\"]}",
        "{\n  \"line\": 1,\n  \"steps\": [\n    \"add(0,0)\",\n    \"add(1,0)\"\n  ],\n  \"file\": null\n}\n",
    ] {
        assert_eq!(
            run(&folder, &["check", "3", "-"], text.as_bytes()).text(),
            ACCEPTED,
            "{}",
            text
        );
    }
    // A word that is no step is one that the check refuses, and is named.
    for (text, step, word) in [
        ("add(0,0) ad(1,0)", 2, "ad(1,0)"),
        ("add(0,0", 1, "add(0,0"),
        ("add(0,65536)", 1, "add(0,65536)"),
        ("add(0,-1)", 1, "add(0,-1)"),
        ("add(0,0x1)", 1, "add(0,0x1)"),
        ("add(0,)", 1, "add(0,)"),
        ("none none", 1, "none"),
        ("a plan", 1, "a"),
        ("add(0,0) junk steps: add(1,0)", 2, "junk"),
        ("add(0,0)#1", 1, "add(0,0)#1"),
    ] {
        let refused = format!(
            "refused 9, place {}: this step has an unknown operation, or a position that is not below its own; it is `{}`\n",
            step, word
        );
        let ended = run(&folder, &["check", "3", "-"], text.as_bytes());
        assert_eq!(
            (ended.status, ended.text()),
            (1, format!("0x03: {}", refused)),
            "{}",
            text
        );
        let ended = run(&folder, &["show", "-"], text.as_bytes());
        assert!(
            ended.status == 1 && ended.text().ends_with(&refused),
            "{}",
            ended.text()
        );
    }
    for (text, told) in [
        ("\n", "the plan has no steps; an empty one is `none`"),
        ("# nothing", "the plan has no steps; an empty one is `none`"),
        ("{\"steps\":null}", NO_OBJECT),
        ("{}", NO_OBJECT),
        ("{\"steps\":[\"add(0,0)\" nonsense \"add(1,0)\"]}", NO_OBJECT),
        ("{\"steps\":[\"add(0,0)\",]}", NO_OBJECT),
        ("{\"steps\":[\"\",\"add(0,0)\"]}", NO_OBJECT),
        ("{\"steps\":[\"add(0,0) add(1,0)\"]}", NO_OBJECT),
        ("{\"steps\":[1]}", NO_OBJECT),
        ("{\"steps\":[\"add(0,0)\"]} trailing", NO_OBJECT),
        ("{\"steps\":[\"add(0,0)\"]}\n{\"steps\":[\"add(0,0)\"]}", NO_OBJECT),
    ] {
        let ended = run(&folder, &["check", "1", "-"], text.as_bytes());
        assert_eq!(
            (ended.status, ended.err),
            (2, format!("lesmutka: {}\n", told)),
            "{}",
            text
        );
    }
    for empty in ["none", " none\n", "{\"steps\":[]}", ""] {
        assert_eq!(
            run(&folder, &["check", "1", "-"], empty.as_bytes()).status,
            0,
            "{}",
            empty
        );
    }
    // Bytes that are no text are bytes, and the call refuses them.
    for (bytes, refusal) in [
        (&b"add(0,0)\0"[..], "refused 7, place 0: "),
        (b"a\0\0\0\0", "refused 9, place 1: "),
        (b"\xff\xff\xff\xff\xff", "refused 9, place 1: "),
        (b"\x02\x00\x00\x00\x00", "refused 9, place 1: "),
    ] {
        let ended = run(&folder, &["check", "3", "-"], bytes);
        assert_eq!(ended.status, 1);
        assert!(
            ended.text().starts_with(&format!("0x03: {}", refusal)),
            "{}",
            ended.text()
        );
    }
    // Text that is longer than any plan's is not read in part.
    let padded = format!("add(0,0)\n{}add(1,1)", " ".repeat(1 << 20));
    for request in [&["check", "2", "-"][..], &["show", "-"]] {
        let ended = run(&folder, request, padded.as_bytes());
        assert_eq!((ended.status, ended.text().as_str()), (2, ""));
        assert_eq!(ended.err, "lesmutka: the plan's text has more than 1048576 bytes\n");
    }
    // A position that the plan does not have, and more steps than a plan has.
    let ended = run(&folder, &["check", "3", "-"], b"add(0,0) add(2,0)");
    assert!(
        ended.text().starts_with("0x03: refused 9, place 2: "),
        "{}",
        ended.text()
    );
    let many = "add(0,0) ".repeat(PLAN_STEPS + 1);
    let ended = run(&folder, &["check", "3", "-"], many.as_bytes());
    assert!(
        ended.text().starts_with("0x03: refused 7, place 0: "),
        "{}",
        ended.text()
    );
}

#[test]
fn huge_plans() {
    let folder = Folder::new();
    for (byte, status) in [(0, 1), (1, 1), (2, 1), (b'a', 2), (0xff, 2)] {
        let ended = run(&folder, &["check", "3", "-"], &vec![byte; 5 << 20]);
        assert_eq!(ended.status, status, "{}", byte);
    }
    let ended = run(&folder, &["check", "3", "/dev/zero"], b"");
    assert!(
        ended.text().starts_with("0x03: refused 7, place 0: "),
        "{}",
        ended.text()
    );
    for name in [".", "missing"] {
        let ended = run(&folder, &["check", "3", name], b"");
        assert_eq!((ended.status, ended.text().as_str()), (3, ""));
        assert!(
            ended.err.starts_with(&format!("lesmutka: cannot read {}: ", name)),
            "{}",
            ended.err
        );
    }
}

#[test]
fn shown() {
    let folder = Folder::new();
    let plan = steps(&[[0, 0, 0], [1, 0, 1], [1, 1, 2]]);
    folder.write("plan", &plan);
    let ended = run(&folder, &["show", "plan"], b"");
    assert_eq!(
        ended.text(),
        "0: 0x01\n1: add(0,0) = 0x02\n2: subtract(0,1) = -0x01\n3: subtract(1,2) = 0x03\n\
         ends at 0x03: 1 doublings, 0 additions, 2 subtractions; at most 2 bits\n"
    );
    assert_eq!(ended.status, 0);
    let object = Json::read(run(&folder, &["show", "plan", "--json"], b"").text().trim_end());
    let texts = |texts: &[&str]| Json::List(texts.iter().map(|text| Json::Text(text.to_string())).collect());
    assert_eq!(object.get("values"), &texts(&["0x01", "0x02", "-0x01", "0x03"]));
    assert_eq!(
        object.get("steps"),
        &texts(&step_words(&plan).split(' ').collect::<Vec<_>>())
    );
    assert_eq!(object.get("subtractions"), &Json::Number(2));
    assert_eq!(object.get("largest_bits"), &Json::Number(2));
    let dot = run(&folder, &["show", "plan", "--dot"], b"").text();
    assert_eq!(
        dot,
        "digraph plan {\n    node [shape=box];\n    0 [label=\"0: 0x01\"];\n    1 [label=\"1: 0x02\"];\n    \
         0 -> 1 [label=\"double\"];\n    2 [label=\"2: -0x01\"];\n    0 -> 2 [label=\"+\"];\n    \
         1 -> 2 [label=\"-\", style=\"dashed\"];\n    3 [label=\"3: 0x03\"];\n    1 -> 3 [label=\"+\"];\n    \
         2 -> 3 [label=\"-\", style=\"dashed\"];\n}\n"
    );
    // An end that is no number of a call has no counts, and no bits.
    let ended = run(&folder, &["show", "-"], &steps(&[[0, 0, 0], [1, 0, 1]]));
    assert!(ended.text().ends_with("ends at -0x01\n"), "{}", ended.text());
    let ended = run(&folder, &["show", "-", "--json"], &steps(&[[0, 0, 0], [1, 0, 1]]));
    let object = Json::read(ended.text().trim_end());
    assert_eq!(object.get("largest_bits"), &Json::Null);
    let doublings: Vec<[u16; 3]> = (0..NUMBER_BITS as u16 + 4).map(|i| [0, i, i]).collect();
    let ended = run(&folder, &["show", "-"], &steps(&doublings));
    assert!(
        ended
            .text()
            .ends_with(&format!("ends at 0x10{}\n", "0".repeat(NUMBER_BITS / 4))),
        "{}",
        ended.text()
    );
    assert_eq!(
        run(&folder, &["show", "-"], b"").text(),
        "0: 0x01\nends at 0x01: 0 doublings, 0 additions, 0 subtractions; at most 1 bits\n"
    );
}

/// Doublings at two positions, by `check` and by `show` in all its forms.
#[test]
fn hidden_doublings_shown() {
    let folder = Folder::new();
    for (name, number, counts, lines, json, dot) in [
        (
            "equal-values.plan",
            "4",
            "3 doublings, 0 additions, 0 subtractions; at most 3 bits",
            "0: 0x01\n1: add(0,0) = 0x02\n2: add(0,0) = 0x02\n3: add(1,2) = 0x04\n",
            [3, 0, 0],
            "    1 [label=\"1: 0x02\"];\n    0 -> 1 [label=\"double\"];\n    2 [label=\"2: 0x02\"];\n    \
             0 -> 2 [label=\"double\"];\n    3 [label=\"3: 0x04\"];\n    1 -> 3 [label=\"double\"];\n    \
             2 -> 3 [label=\"+\"];\n}\n",
        ),
        (
            "opposite-values.plan",
            "2",
            "2 doublings, 0 additions, 1 subtractions; at most 2 bits",
            "0: 0x01\n1: add(0,0) = 0x02\n2: subtract(0,1) = -0x01\n3: subtract(0,2) = 0x02\n",
            [2, 0, 1],
            "    1 [label=\"1: 0x02\"];\n    0 -> 1 [label=\"double\"];\n    2 [label=\"2: -0x01\"];\n    \
             0 -> 2 [label=\"+\"];\n    1 -> 2 [label=\"-\", style=\"dashed\"];\n    3 [label=\"3: 0x02\"];\n    \
             0 -> 3 [label=\"double\"];\n    2 -> 3 [label=\"-\", style=\"dashed\"];\n}\n",
        ),
    ] {
        let plan = &stored_files()[name];
        folder.write(name, plan);
        let ended = run(&folder, &["check", number, name], b"");
        assert_eq!(ended.text(), format!("0x0{}: accepted: {}\n", number, counts));
        let ended = run(&folder, &["check", number, "-"], step_words(plan).as_bytes());
        assert_eq!(ended.text(), format!("0x0{}: accepted: {}\n", number, counts));
        let ended = run(&folder, &["show", name], b"");
        assert_eq!(ended.text(), format!("{}ends at 0x0{}: {}\n", lines, number, counts));
        let head = "digraph plan {\n    node [shape=box];\n    0 [label=\"0: 0x01\"];\n";
        let ended = run(&folder, &["show", name, "--dot"], b"");
        assert_eq!(ended.text(), format!("{}{}", head, dot));
        for words in [&["show", name, "--json"][..], &["check", number, name, "--json"]] {
            let object = Json::read(run(&folder, words, b"").text().trim_end());
            for (kind, count) in ["doublings", "additions", "subtractions"].iter().zip(json) {
                assert_eq!(object.get(kind), &Json::Number(count), "{}: {}", name, kind);
            }
        }
    }
}

/// The bits of the largest size, below zero and at the limit, by `check` and by `show`, in words and as JSON.
#[test]
fn largest_sizes_shown() {
    let folder = Folder::new();
    for (name, number, bits) in [
        ("largest-below-zero.plan", "1", 3),
        ("largest-most.plan", "2", VALUE_BITS as i128),
    ] {
        folder.write(name, &stored_files()[name]);
        let told = format!(" subtractions; at most {} bits\n", bits);
        for words in [&["check", number, name][..], &["show", name]] {
            let ended = run(&folder, words, b"");
            assert!(ended.text().ends_with(&told), "{}", ended.text());
            let ended = run(&folder, &[words, &["--json"]].concat(), b"");
            let object = Json::read(ended.text().trim_end());
            assert_eq!(object.get("largest_bits"), &Json::Number(bits), "{}", name);
        }
        let ended = run(&folder, &["check", "9", name, "--json"], b"");
        let object = Json::read(ended.text().trim_end());
        assert_eq!((ended.status, object.get("largest_bits")), (1, &Json::Null));
    }
}

/// Down to the step that is not sound, and why.
#[test]
fn shown_and_refused() {
    let folder = Folder::new();
    for (plan, last) in [
        (
            steps(&[[0, 0, 0], [2, 0, 0], [0, 0, 0]]),
            "refused 9, place 2: this step has an unknown operation, or a position that is not below its own\n",
        ),
        (
            steps(&[[0, 0, 0], [1, 0, 0]]),
            "refused 10, place 2: the value at this step is zero\n",
        ),
    ] {
        let ended = run(&folder, &["show", "-"], &plan);
        assert_eq!(ended.text(), format!("0: 0x01\n1: add(0,0) = 0x02\n{}", last));
        assert_eq!(ended.status, 1);
        let object = Json::read(run(&folder, &["show", "-", "--json"], &plan).text().trim_end());
        assert_eq!(
            object.get("values"),
            &Json::List(vec![Json::Text("0x01".into()), Json::Text("0x02".into())])
        );
        let ended = run(&folder, &["show", "-", "--dot"], &plan);
        assert_eq!(ended.status, 1);
        assert!(ended.text().ends_with("0 -> 1 [label=\"double\"];\n}\n"));
        assert_eq!(ended.err, format!("lesmutka: {}", last));
    }
    let ended = run(&folder, &["show", "-"], &[0; 4]);
    assert_eq!(ended.status, 1);
    assert!(ended.text().starts_with("refused 7, place 0: "), "{}", ended.text());
}

/// What is no object of a plan, however near.
#[test]
fn objects_that_are_no_plan() {
    let folder = Folder::new();
    let steps = "\"steps\":[\"add(0,0)\",\"add(1,0)\"]";
    for text in [
        format!("{{{{ {}}}", steps),
        format!("{{\"x\":1,,{}}}", steps),
        format!("{{{} nonsense}}", steps),
        format!("{{{}}}}}", steps),
        format!("{{{}}} {{\"x\":1}}", steps),
        format!("{{{},{}}}", steps, steps),
        format!("{{\"status\":\"refused\",{}}}", steps),
        "{\"steps\":[\"none\"]}".to_string(),
        "{\"steps\":\"add(0,0)\"}".to_string(),
        "{\"steps\":[\u{a0}]}".to_string(),
        format!("{}{}", "{\"steps\":".repeat(100_000), "}".repeat(100_000)),
        format!("{{\"steps\":{}", "[".repeat(500_000)),
    ] {
        let ended = run(&folder, &["check", "3", "-"], text.as_bytes());
        assert_eq!(
            (ended.status, ended.err),
            (2, format!("lesmutka: {}\n", NO_OBJECT)),
            "{:.200}",
            text
        );
    }
    // What stands in another field does no harm.
    for other in [
        "\"message\":\"a # b\"",
        "\"message\":\"steps \\\" \"",
        "\"x\":[1,-2.5e3,{\"steps\":null}]",
    ] {
        let text = format!("{{{},{}}}", other, steps);
        assert_eq!(
            run(&folder, &["check", "3", "-"], text.as_bytes()).text(),
            ACCEPTED,
            "{}",
            text
        );
    }
}

/// Text with bytes that are no characters: comments may have them, and a word with one is named.
#[test]
fn text_that_is_no_utf8() {
    let folder = Folder::new();
    for text in [
        &b"add(0,0) add(1,0) # caf\xe9"[..],
        b"# a\x1bb\nadd(0,0) add(1,0)\n",
        b"\xef\xbb\xbfadd(0,0)\x0badd(1,0)",
    ] {
        assert_eq!(run(&folder, &["check", "3", "-"], text).text(), ACCEPTED);
    }
    let ended = run(&folder, &["check", "3", "-"], b"add(0,0) add(1\xff,0)");
    assert!(
        ended.text().ends_with("; it is `add(1\u{fffd},0)`\n"),
        "{}",
        ended.text()
    );
    let ended = run(&folder, &["check", "3", "-"], b"\xef\xbb\xbf");
    assert_eq!(ended.err, "lesmutka: the plan has no steps; an empty one is `none`\n");
    // Longer than any text, wherever a character is cut.
    for more in 0..3 {
        let mut text = b"add(0,0) add(1,0)\n#".to_vec();
        text.resize((1 << 20) - more, b'x');
        text.extend_from_slice("\u{e9}\u{e9}".as_bytes());
        assert_eq!(run(&folder, &["check", "3", "-"], &text).status, 2, "{}", more);
    }
}

/// The answer to a line that wrote a file comes before the next line is answered.
#[test]
fn answers_with_their_files() {
    use std::io::{BufRead, BufReader, Write};
    let folder = Folder::new();
    let mut child = common::started(common::program().args(["batch", "--force"]).current_dir(folder.path()));
    let mut stdin = child.stdin.take().expect("standard input");
    let mut lines = "plan 3 1 to first\n".to_string();
    lines += &"plan 3 1 to x\n".repeat(2000);
    stdin.write_all(lines.as_bytes()).expect("requests");
    let mut stdout = BufReader::new(child.stdout.take().expect("standard output"));
    let mut answer = String::new();
    stdout.read_line(&mut answer).expect("an answer");
    assert_eq!(answer, format!("1: {}first\n", WRITTEN));
    child.kill().expect("the program is still at work");
    child.wait().expect("the program ends");
    assert_eq!(folder.read("first"), three());
}
