//! The line program: the session of document 01, with kind 2, and the forms of
//! lines.

use reference::lines;

fn run(input: &[u8]) -> String {
    String::from_utf8(lines::run(input)).unwrap()
}

#[test]
fn session() {
    let input = b"open 1 1\nadd 2 Bus-17 40\nadd 2 BUS-17 41\nget 2 bus-17\nset 2 bUS-17 9\n\
        add 2 Tram_2 0\ndel 2 BUS-17\nget 2 BUS-17\nget 2 tram_2\nadd 2 a/b 3\n";
    let output = "ok 0\nok 1\nno 6\nok 40\nok 40\nok 2\nok 9\nno 7\nok 0\nno 2\n";
    assert_eq!(run(input), output);
}

/// The answer to one line after `open 1 1` and `add 2 A 7`.
fn after_open(line: &[u8]) -> String {
    let mut input = b"open 1 1\nadd 2 A 7\n".to_vec();
    input.extend(line);
    let output = run(&input);
    let rest = output.strip_prefix("ok 0\nok 1\n").unwrap();
    rest.strip_suffix('\n').unwrap().to_string()
}

#[test]
fn forms_of_lines() {
    let lines: [(&[u8], &str); 124] = [
        (b"get 2 A\n", "ok 7"),
        (b"get 2 a\n", "ok 7"),
        (b"get 2 A", "bad"),
        (b"get  2 A\n", "bad"),
        (b"get 2  A\n", "bad"),
        (b"get 2 A \n", "bad"),
        (b" get 2 A\n", "bad"),
        (b"get\t2 A\n", "bad"),
        (b"get 2\tA\n", "bad"),
        (b"GET 2 A\n", "bad"),
        (b"get 2 A\r\n", "no 2"),
        (b"get 2 \n", "no 1"),
        (b"get 2\n", "bad"),
        (b"get 2  \n", "bad"),
        (b"get \n", "bad"),
        (b"get  \n", "bad"),
        (b"get\n", "bad"),
        (b"get 2 A 1\n", "bad"),
        (b"get 2 \xff\n", "no 2"),
        (b"get 2 \0\n", "no 2"),
        (b"get 2 B\n", "no 7"),
        (b"get 0 A\n", "no 15"),
        (b"get 1 A\n", "no 7"),
        (b"get 3 A\n", "no 7"),
        (b"get 7 A\n", "no 7"),
        (b"get 8 A\n", "no 15"),
        (b"get 9 A\n", "no 15"),
        (b"get 0 \n", "no 15"),
        (b"get 9 /\n", "no 15"),
        (b"get 02 A\n", "bad"),
        (b"get 20 A\n", "bad"),
        (b"get 258 A\n", "bad"),
        (b"get +2 A\n", "bad"),
        (b"get / A\n", "bad"),
        (b"get : A\n", "bad"),
        (b"get B A\n", "bad"),
        (b"get \x02 A\n", "bad"),
        (b"get \xb2 A\n", "bad"),
        (b"get A\n", "bad"),
        (b"get  A\n", "bad"),
        (b"del 2 A\n", "ok 7"),
        (b"del 2 \n", "no 1"),
        (b"del 2 B\n", "no 7"),
        (b"del 6 A\n", "no 7"),
        (b"del 8 A\n", "no 15"),
        (b"del 2\n", "bad"),
        (b"del\n", "bad"),
        (b"del A\n", "bad"),
        (b"del A A\n", "bad"),
        (b"del 2 A 7\n", "bad"),
        (b"add 2 B 0\n", "ok 2"),
        (b"add 2 B 254\n", "ok 2"),
        (b"add 2 B 255\n", "no 14"),
        (b"add 2 B 256\n", "bad"),
        (b"add 2 B 0255\n", "bad"),
        (b"add 2 B 255 \n", "bad"),
        (b"add 2 A 255\n", "no 14"),
        (b"add 2  255\n", "no 1"),
        (b"add 2 / 255\n", "no 2"),
        (b"add 2 255\n", "bad"),
        (b"add 255\n", "bad"),
        (b"add 2 B 00\n", "bad"),
        (b"add 2 B 01\n", "bad"),
        (b"add 2 B +1\n", "bad"),
        (b"add 2 B -1\n", "bad"),
        (b"add 2 B 1a\n", "bad"),
        (b"add 2 B \n", "bad"),
        (b"add 2 B\n", "bad"),
        (b"add B 1\n", "bad"),
        (b"add 2 B 1 \n", "bad"),
        (b"add 2 B 1\r\n", "bad"),
        (b"add 2 B 18446744073709551617\n", "bad"),
        (b"add 2  5\n", "no 1"),
        (b"add 2   5\n", "bad"),
        (b"add   5\n", "bad"),
        (b"add 2 5\n", "bad"),
        (b"add 5\n", "bad"),
        (b"add 2 A 5\n", "no 6"),
        (b"add 3 A 5\n", "ok 2"),
        (b"add 1 a 5\n", "ok 2"),
        (b"add 0 A 5\n", "no 15"),
        (b"add 8  5\n", "no 15"),
        (b"add 9 / 255\n", "no 15"),
        (b"add 0 A 256\n", "bad"),
        (b"add 10 A 5\n", "bad"),
        (b"add  A 5\n", "bad"),
        (b"add A A 5\n", "bad"),
        (b"add 2 A 256\n", "bad"),
        (b"set 2 A 5\n", "ok 7"),
        (b"set 2 B 5\n", "no 7"),
        (b"set 4 A 5\n", "no 7"),
        (b"set 8 A 5\n", "no 15"),
        (b"set 0 A 255\n", "no 15"),
        (b"set 22 A 5\n", "bad"),
        (b"set A 5\n", "bad"),
        (b"set 2 A 255\n", "no 14"),
        (b"set 2 B 255\n", "no 14"),
        (b"set 2  255\n", "no 1"),
        (b"set 2 a/b 255\n", "no 2"),
        (b"set 2 A 256\n", "bad"),
        (b"set 2  5\n", "no 1"),
        (b"set 2 a b 5\n", "bad"),
        (b"\n", "bad"),
        (b" \n", "bad"),
        (b"   \n", "bad"),
        (b"query 2 A\n", "bad"),
        (b"open 48 32\n", "ok 0"),
        (b"open 49 32\n", "no 3"),
        (b"open 48 33\n", "no 3"),
        (b"open 0 1\n", "no 3"),
        (b"open 1 0\n", "no 3"),
        (b"open 999 999\n", "no 3"),
        (b"open 1000 1\n", "bad"),
        (b"open 1 1000\n", "bad"),
        (b"open 01 1\n", "bad"),
        (b"open 1\n", "bad"),
        (b"open 1 1 1\n", "bad"),
        (b"open 2 1 1\n", "bad"),
        (b"open  1\n", "bad"),
        (b"open 1 \n", "bad"),
        (b"open 1 1", "bad"),
        (b"opena 1 1\n", "bad"),
        (b"get 2 abcdefghijklmnopqrstuvwxyz0123456789\n", "no 7"),
        (b"get 2 abcdefghijklmnopqrstuvwxyz0123456789x\n", "no 1"),
    ];
    for (line, answer) in lines {
        assert_eq!(
            after_open(line),
            answer,
            "{:?}",
            String::from_utf8_lossy(line)
        );
    }
}

#[test]
fn length_of_lines() {
    let line = |id: usize| {
        let mut line = b"get 2 ".to_vec();
        line.extend(vec![b'x'; id]);
        line.push(b'\n');
        line
    };
    assert_eq!(line(57).len(), 64);
    assert_eq!(after_open(&line(36)), "no 7");
    assert_eq!(after_open(&line(37)), "no 1");
    assert_eq!(after_open(&line(57)), "no 1");
    assert_eq!(after_open(&line(58)), "bad");
    assert_eq!(after_open(&line(5000)), "bad");
    // A longer line is one line.
    let mut input = line(200);
    input.extend(b"open 1 1\n");
    assert_eq!(run(&input), "bad\nok 0\n");
}

#[test]
fn before_and_after_openings() {
    assert_eq!(run(b""), "");
    assert_eq!(run(b"\n"), "bad\n");
    assert_eq!(
        run(
            b"get 2 A\nadd 2 A 1\nset 2 A 1\ndel 2 A\nget 2 \nget 0 A\nopen 49 1\n\
            get 2 A\nopen 1 1\nget 2 A\n"
        ),
        "bad\nbad\nbad\nbad\nbad\nbad\nno 3\nbad\nok 0\nno 7\n"
    );
    assert_eq!(
        run(b"add 2 A 255\nset 2 A 255\nadd 2  255\nopen 1 1\nadd 2 A 255\n"),
        "bad\nbad\nbad\nok 0\nno 14\n"
    );
    // A refused open keeps the table, an accepted one starts afresh.
    assert_eq!(
        run(
            b"open 1 1\nadd 2 A 1\nopen 0 0\nget 2 A\nopen 1000 1\nget 2 A\n\
            open 2 3\nget 2 A\nadd 2 A 2\n"
        ),
        "ok 0\nok 1\nno 3\nok 1\nbad\nok 1\nok 0\nno 7\nok 1\n"
    );
}

#[test]
fn first_64_kib() {
    // 16 bytes a line: 4096 lines are 64 KiB.
    let mut input = Vec::new();
    for _ in 0..4096 {
        input.extend(b"open 1 1 1 1 1 \n");
    }
    assert_eq!(input.len(), 65536);
    assert_eq!(run(&input).len(), 4 * 4096);
    // What follows is not read.
    input.extend(b"open 1 1\n");
    assert_eq!(run(&input), "bad\n".repeat(4096));
    // A line across the limit has no LF.
    let mut input = b"open 1 1\n".to_vec();
    input.extend(b"open 1 1\n".repeat(7281));
    assert_eq!(input.len(), 65538);
    let mut expected = "ok 0\n".repeat(7281);
    expected.push_str("bad\n");
    assert_eq!(run(&input), expected);
    // The LF may be the last byte read.
    assert_eq!(run(&input[2..]), format!("bad\n{}", "ok 0\n".repeat(7281)));
}

#[test]
fn full_base_list() {
    let mut input = b"open 1 1\n".to_vec();
    for i in 0..400 {
        input.extend(format!("add 2 card-{i} {}\n", i % 255).bytes());
    }
    let output = run(&input);
    let live = output.lines().filter(|line| line.starts_with("ok")).count() - 1;
    let full = output.lines().filter(|line| *line == "no 8").count();
    assert_eq!(live + full, 400);
    assert!(live > 128 && full > 100);
}
