//! Scripts at the edges: Case R, lines that are not of the form or nearly not, first lines.

use super::model;
use super::player::Player;

pub const CASE_R: &str =
    "n 2 3 2\nw 0 17 0000000a t\nw 1 17 00000000 t\ns 0\ns 1\ns 0\ns 0\ns 1\ns 1\n\
                      s 1\nr 0 17 b\ns 0\ns 0\nd\n";
pub const CASE_R_OUTPUT: &str =
    "1 ok\n2 ok\n3 no 13\n4 moved\n5 no 8\n6 moved\n\
                             7 done turns 3 in 1 out 0\n8 no 8\n9 no 8\n\
                             10 no 8\n11 ok\n12 read 0000000a turns 1 in 0 out 0\n\
                             13 no 8\n14 ok\n";

/// Lines that are not of the form, or nearly not.
pub fn bad_lines() -> Vec<Vec<u8>> {
    let texts = [
        "",
        " ",
        "n",
        "n 2 3 2",
        "n 2 3",
        "r",
        "w",
        "s",
        "x",
        "D",
        "S 0",
        "R 0 0 t",
        "W 0 0 00000001 t",
        " d",
        "d ",
        "d d",
        "d 0",
        "dd",
        "s  0",
        "s 0 ",
        " s 0",
        "s 0 0",
        "s\t0",
        "s 0\r",
        "d\r",
        "s +0",
        "s -1",
        "s 0x0",
        "s a",
        "s 0000000000",
        "s 0000000001",
        "s 1000000000",
        "s 000000000",
        "s 999999999",
        "s 4294967296",
        "s 18446744073709551616",
        "s 00000000000000000000000000000000000000000000000000000000000000",
        "r 0 0",
        "r 0 0 t ",
        "r 0 0  t",
        "r 0 0 x",
        "r 0 0 T",
        "r 0 0 B",
        "r 0 0 tb",
        "r 0 0 t b",
        "r 0 t",
        "r 0 0t",
        "r0 0 t",
        "r 0 0000000000 t",
        "r 0 000000000 t",
        "r 0 999999999 b",
        "r 999999999 0 t",
        "r 0 00000000 t",
        "r 0 0 00000000 t",
        "w 0 0 t",
        "w 0 0 0000000a",
        "w 0 0 0000000A t",
        "w 0 0 0000000g t",
        "w 0 0 000000a t",
        "w 0 0 00000000a t",
        "w 0 0 0x00000a t",
        "w 0 0 ABCDEF01 t",
        "w 0 0 -000000a t",
        "w 0 0 +000000a t",
        "w 0 0 0000000a tt",
        "w 0 0 0000000a  t",
        "w 0 0  0000000a t",
        "w 0  0 0000000a t",
        "w  0 0 0000000a t",
        "w 0 0 0000000a t ",
        "w 0 0 0000000a t\r",
        "w 0 0 ffffffff",
        "w 0 0000000000 00000001 t",
        "w 0 0 0000000` t",
        "w 0 0 0000000: t",
        "w 0 0 0000000/ t",
        "s /",
        "s :",
        "s 0/",
        "s 0:",
    ];
    let mut lines: Vec<Vec<u8>> = texts.iter().map(|text| text.as_bytes().to_vec()).collect();
    for length in [32, 63, 64, 65, 66, 127, 128, 129, 255, 256, 257] {
        for first in ["d", "s 0", "s 00", "w 0 0 00000001 t", "n 2 3 2"] {
            for fill in [b' ', b'0', b'x', 0, 0xff] {
                let mut line = first.as_bytes().to_vec();
                line.resize(length, fill);
                lines.push(line);
            }
        }
    }
    for byte in [0, 1, b'\t', 0x0b, 0x0c, b'\r', 0x7f, 0x80, 0xa0, 0xc3, 0xff] {
        lines.push(vec![byte]);
        lines.push(vec![b'd', byte]);
        lines.push(vec![byte, b'd']);
        lines.push(vec![b's', byte, b'0']);
        lines.push(vec![b's', b' ', byte]);
        lines.push(vec![b's', b' ', b'0', byte]);
    }
    lines
}

/// First lines: every limit, every form.
pub fn first_lines() -> Vec<String> {
    let mut lines = Vec::new();
    for n in [
        "0",
        "1",
        "2",
        "799",
        "800",
        "801",
        "262144",
        "262145",
        "999999999",
        "000000800",
        "0000000800",
    ] {
        for (l, t) in [("2", "1"), ("9", "8"), ("64", "8")] {
            lines.push(format!("n {n} {l} {t}"));
        }
    }
    for t in 0..=10 {
        for l in (0..=11).chain([63, 64, 65, 66, 128, 256, 257, 65_536, 999_999_999]) {
            lines.push(format!("n 2 {l} {t}"));
        }
    }
    let more = [
        "",
        " ",
        "d",
        "s 0",
        "r 0 0 t",
        "w 0 0 00000001 t",
        "n",
        "n 2",
        "n 2 3",
        "n 2 3 2 ",
        " n 2 3 2",
        "n  2 3 2",
        "n 2 3 2 1",
        "N 2 3 2",
        "n 2 3 2\r",
        "n 2 3 x",
        "n 2 3 -2",
        "n 02 003 0002",
        "n 2 3 0000000002",
        "n 2 3 256",
        "n 2 3 258",
        "n 258 4294967299 2",
        "n 999999999 999999999 999999999",
        "nn 2 3 2",
        "n,2,3,2",
        "\u{feff}n 2 3 2",
    ];
    lines.extend(more.iter().map(|line| line.to_string()));
    lines
}

pub fn edges(player: &mut Player) {
    assert_eq!(model::replay(CASE_R.as_bytes()), CASE_R_OUTPUT.as_bytes(), "Case R by the model");
    // Case R in every piece size, with and without its last newline; every beginning of it.
    for piece in 0..=20 {
        player.play(CASE_R.as_bytes(), &[], piece);
    }
    for end in 0..CASE_R.len() {
        player.play(&CASE_R.as_bytes()[..end], &[], 4096);
    }
    for text in [
        "",
        "\n",
        "\n\n",
        "n 2 3 2",
        "n 2 3 2\n",
        "n 2 3 2\n\n",
        "n 2 3 2\n\nd",
        "\0",
        "\0\n",
        "\r\n",
        " \n",
    ] {
        player.play(text.as_bytes(), &[], 4096);
    }
    for first in first_lines() {
        player.play(
            format!("{first}\nd\nn 2 3 2\nd\ns 0\nr 0 0 t\ns 0\nx\nd").as_bytes(),
            &[],
            4096,
        );
    }
    // Every bad line in a run of its own and all in one, with good work between.
    let bad = bad_lines();
    let mut all = b"n 2 3 2\n".to_vec();
    for line in &bad {
        for script in
            [[b"n 2 3 2\n", &line[..]].concat(), line.clone(), [line, &b"\nd\n"[..]].concat()]
        {
            if player.scripts % 3 == 0 {
                player.play(&script, &[], 4096);
            } else {
                player.play(&script, &[], 0);
            }
        }
        all.extend_from_slice(b"w 0 17 00000001 b\ns 0\n");
        all.extend_from_slice(line);
        all.extend_from_slice(b"\ns 0\n");
    }
    player.play(&all, &[], 4096);
    // Lines that begin, end and lie across the ends of a reader's chunk, and huge lines.
    for chunk in [4096usize, 8192, 16_384, 32_768, 65_536, 131_072] {
        for shift in [
            chunk - 66,
            chunk - 65,
            chunk - 64,
            chunk - 9,
            chunk - 3,
            chunk - 2,
            chunk - 1,
            chunk,
            chunk + 1,
        ] {
            // Filled up to `shift` bytes, then work.
            let mut script = b"n 2 3 2\n".to_vec();
            while script.len() + 18 <= shift {
                script.extend_from_slice(b"w 1 17 0000000a t\n");
            }
            while script.len() < shift {
                script.push(b'\n');
            }
            script.extend_from_slice(b"w 0 17 0000000a t\ns 0\ns 0\ns 0\nr 0 17 b\ns 0\nd");
            player.play(&script, &[], if shift % 2 == 0 { 0 } else { chunk });
            // One line of this many bytes, and good lines after it.
            for fill in [b'd', b' ', b'0'] {
                let mut script = b"n 2 3 2\ns 0".to_vec();
                script.resize(script.len() + shift, fill);
                script.extend_from_slice(b"\nr 0 17 t\ns 0\n");
                player.play(&script, &[], if shift % 2 == 0 { chunk } else { 0 });
                script.resize(script.len() + shift, fill);
                player.play(&script, &[], 0);
            }
        }
    }
    let mut huge = b"n 2 3 2\nd\nd".to_vec();
    huge.resize(3_000_000, b'd');
    player.play(&huge, &[], 65_536);
    player.play(&[&huge[..], b"\nd\n"].concat(), &[], 65_536);
    player.play(&huge[10..], &[], 0);
    player.closed_output(CASE_R.as_bytes());
    player.closed_output(&[b"n 2 3 2\n", &b"d\n".repeat(500_000)[..]].concat());
    // The count of turns stays at 65,535 once there.
    for waits in [65_531, 65_532, 65_533, 65_534, 70_000] {
        let mut script = b"n 2 3 2\nw 0 0 00000001 t\nw 1 1 00000001 t\ns 0\n".to_vec();
        script.extend_from_slice(&b"s 1\n".repeat(waits));
        script.extend_from_slice(b"s 0\ns 0\ns 1\ns 1\ns 1\nr 1 1 b\ns 1\nd\n");
        player.play(&script, &[], 65_536);
    }
}
