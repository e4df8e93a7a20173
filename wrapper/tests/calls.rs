//! The calls through the archive, on document 01's examples.

use geomcore::Reason;

/// Example 10's job file: two planes that meet along the x axis.
fn example() -> Vec<u8> {
    let plane = |y: [f64; 3], z: [f64; 3]| {
        let mut numbers = vec![0.0, 0.0, 0.0, 1.0, 0.0, 0.0];
        numbers.extend(y);
        numbers.extend(z);
        numbers.extend([0.0, 0.0, 0.0, 0.3, -1.0, 1.0]);
        let mut bytes = vec![0, 0];
        bytes.extend(numbers.iter().flat_map(|x: &f64| x.to_be_bytes()));
        bytes
    };
    let mut bytes = vec![0, 0, 1, 87, 1];
    bytes.extend(plane([0.0, 1.0, 0.0], [0.0, 0.0, 1.0]));
    bytes.extend(plane([0.0, 0.0, 1.0], [0.0, -1.0, 0.0]));
    let rest = [2f64.powi(-20), 1e-12, 0.15, 0.0, 0.15, 0.0];
    bytes.extend(rest.iter().flat_map(|x: &f64| x.to_be_bytes()));
    bytes.extend(500u16.to_be_bytes());
    bytes
}

/// Example 2's surface: a cylinder of radius 2 in the unit frame, both windows without end.
fn cylinder() -> Vec<u8> {
    let numbers = [
        0.0,
        0.0,
        0.0,
        1.0,
        0.0,
        0.0,
        0.0,
        1.0,
        0.0,
        0.0,
        0.0,
        1.0, // origin, x, y, z
        2.0,
        0.0, // sizes
        f64::NEG_INFINITY,
        f64::INFINITY,
        f64::NEG_INFINITY,
        f64::INFINITY,
    ];
    let mut bytes = vec![1, 0];
    bytes.extend(numbers.iter().flat_map(|x: &f64| x.to_be_bytes()));
    bytes
}

/// Writes numbers into a job file, from a byte on.
fn put(job: &mut [u8], at: usize, numbers: &[f64]) {
    for (k, x) in numbers.iter().enumerate() {
        job[at + 8 * k..at + 8 * k + 8].copy_from_slice(&x.to_be_bytes());
    }
}

#[test]
fn point_of_a_cylinder() {
    let mut surface = cylinder();
    assert_eq!(surface.len(), geomcore::SURFACE_BYTES);
    assert_eq!(geomcore::point(&surface, 0.0, 5.0), Ok([2.0, 0.0, 5.0]));
    assert_eq!(
        geomcore::point(&surface, f64::NAN, 5.0).unwrap_err().number,
        6
    );
    assert_eq!(
        geomcore::point(&surface[..145], 0.0, 5.0)
            .unwrap_err()
            .number,
        19
    );
    surface[0] = 5;
    assert_eq!(geomcore::point(&surface, 0.0, 5.0).unwrap_err().number, 19);
}

/// A trace's numbers, of points at (x, y, 0).
fn level(points: impl IntoIterator<Item = [f64; 2]>) -> Vec<f64> {
    let point = |[x, y]: [f64; 2]| [x, y, 0.0, 0.0, 0.0, 0.0, 0.0];
    points.into_iter().flat_map(point).collect()
}

/// Example 8's points.
fn four_points() -> Vec<f64> {
    level((0..4).map(|i| [0.1 * f64::from(i), 0.0]))
}

#[test]
fn crossing_of_four_points() {
    let buffer = four_points();
    let cross = |y: f64| {
        geomcore::crossing(
            2f64.powi(-20),
            1e-12,
            &buffer,
            4,
            [0.15, y, 0.0],
            [0.15, y, 0.0],
        )
    };
    assert_eq!(cross(0.005), Ok(true));
    assert_eq!(cross(0.01), Ok(false));
    assert_eq!(cross(f64::NAN).unwrap_err().number, 17);
}

/// What is said of a level trace and the box that is the point (x, y, 0); the stretch is that part of the trace itself.
fn explained(buffer: &[f64], [x, y]: [f64; 2]) -> Reason {
    let (confusion, count, corner) = (2f64.powi(-20), buffer.len() / 7, [x, y, 0.0]);
    let reason = geomcore::explain(confusion, 1e-12, buffer, count, corner, corner).unwrap();
    let stretch = geomcore::stretch(confusion, 1e-12, buffer, count, corner, corner);
    match reason {
        Reason::Segment(i) => assert!(std::ptr::eq(stretch, &buffer[7 * i..7 * (i + 2)])),
        _ => assert!(stretch.is_empty()),
    }
    reason
}

/// Example 8 explained, and the first axis where several are apart.
#[test]
fn why_four_points_cross() {
    let buffer = four_points();
    assert_eq!(explained(&buffer, [0.15, 0.005]), Reason::Segment(1));
    assert_eq!(explained(&buffer, [0.15, 0.01]), Reason::WholeApart(1));
    assert_eq!(explained(&buffer, [0.31, 0.01]), Reason::WholeApart(0));
    assert_eq!(explained(&buffer, [0.2, 0.0]), Reason::Segment(1));
    let above = [0.15, 0.0, 0.5];
    let reason = geomcore::explain(2f64.powi(-20), 1e-12, &buffer, 4, above, above);
    assert_eq!(reason, Ok(Reason::WholeApart(2)));
}

/// Two runs at a right angle, 16 segments along x and 16 along y, and a third run of one segment aslant.
#[test]
fn why_runs_cross() {
    let along = (0..17).map(|i| [f64::from(i), 0.0]);
    let up = (1..17).map(|i| [16.0, f64::from(i)]);
    let buffer = level(along.chain(up).chain([[15.0, 17.0]]));
    assert_eq!(buffer.len(), 7 * 34);
    assert_eq!(explained(&buffer, [15.5, 0.0]), Reason::Segment(15));
    assert_eq!(explained(&buffer, [16.0, 0.0]), Reason::Segment(15));
    assert_eq!(explained(&buffer, [16.0, 0.5]), Reason::Segment(16));
    assert_eq!(explained(&buffer, [15.5, 16.5]), Reason::Segment(32));
    assert_eq!(explained(&buffer, [8.0, 8.0]), Reason::RunsApart);
    assert_eq!(explained(&buffer, [15.1, 16.1]), Reason::NoneMet(1));
    assert_eq!(explained(&buffer, [8.0, 17.1]), Reason::WholeApart(1));
}

/// Two runs aslant, the second going on or coming back over the first.
#[test]
fn why_runs_aslant_cross() {
    let on = level((0..33).map(|i| [f64::from(i); 2]));
    assert_eq!(explained(&on, [1.0, 15.0]), Reason::NoneMet(16));
    assert_eq!(explained(&on, [1.0, 17.0]), Reason::RunsApart);
    assert_eq!(explained(&on, [16.0, 16.005]), Reason::Segment(15));
    let back = level((0..33).map(|i: i32| [f64::from(16 - (16 - i).abs()); 2]));
    assert_eq!(explained(&back, [1.0, 15.0]), Reason::NoneMet(32));
    assert_eq!(explained(&back, [1.5, 1.5]), Reason::Segment(1));
}

/// Every refusal, in its order: each call has all the later faults too. Where one refuses, the stretch is empty.
#[test]
fn refused_by_the_explanation() {
    let fit = four_points();
    let mut unfit = fit.clone();
    unfit[0] = f64::NAN;
    let number = |confusion: f64, buffer: &[f64], count: usize, y: f64| {
        let (low, high) = ([0.1, y, 0.0], [0.2, 0.0, 0.0]);
        let reason = geomcore::explain(confusion, 1e-12, buffer, count, low, high);
        let crossed = geomcore::crossing(confusion, 1e-12, buffer, count, low, high);
        assert_eq!(reason.err(), crossed.err());
        let stretch = geomcore::stretch(confusion, 1e-12, buffer, count, low, high);
        assert_eq!(stretch.is_empty(), reason.is_err());
        reason.map_or_else(|refusal| refusal.number, |_| 0)
    };
    assert_eq!(number(0.0, &unfit[..20], 3, 1.0), 5);
    assert_eq!(number(1e-7, &unfit[..20], 3, 1.0), 8);
    assert_eq!(number(1e-7, &unfit, usize::MAX, 1.0), 8);
    assert_eq!(number(1e-7, &unfit, 3, 1.0), 12);
    assert_eq!(number(1e-7, &unfit, 4, 1.0), 18);
    assert_eq!(number(1e-7, &fit, 4, 1.0), 17);
    assert_eq!(number(1e-7, &fit, 4, 0.0), 0);
}

/// The circle of radius 2 where example 2's cylinder meets a level plane.
fn circle() -> Vec<u8> {
    let mut job = example();
    job.copy_within(
        geomcore::SURFACE_A..geomcore::SURFACE_B,
        geomcore::SURFACE_B,
    );
    job[geomcore::SURFACE_A..geomcore::SURFACE_B].copy_from_slice(&cylinder());
    put(&mut job, geomcore::SURFACE_B + 114, &[-3.0, 3.0, -3.0, 3.0]); // the plane's windows
    put(&mut job, 313, &[0.0, 0.0, 2.0, 0.0]); // the guess
    job
}

/// Around a traced line a segment is the reason exactly where the line crosses, and the line up to it does not cross; each reason is there.
#[test]
fn explained_where_crossing() {
    let mut buffer = vec![0.0; geomcore::room(500)];
    let line = geomcore::trace(&circle(), &mut buffer).unwrap();
    let numbers = &buffer[..7 * line.count];
    let mut seen = [0; 4];
    for k in 0..1300 {
        let (r, a) = (0.1991 * f64::from(k % 13), 0.05 * f64::from(k));
        let at = [r * a.cos(), r * a.sin()];
        let corner = [at[0], at[1], 0.0];
        let cross =
            |count| geomcore::crossing(2f64.powi(-20), 1e-12, &buffer, count, corner, corner);
        let reason = explained(numbers, at);
        let kind = match reason {
            Reason::Segment(i) => {
                assert!(i < 3 || cross(i + 1) == Ok(false));
                0
            }
            Reason::WholeApart(_) => 1,
            Reason::RunsApart => 2,
            Reason::NoneMet(_) => 3,
        };
        assert_eq!(cross(line.count), Ok(kind == 0));
        seen[kind] += 1;
    }
    assert!(seen.iter().all(|n| *n > 50), "{seen:?}");
}

/// Each reason in words.
#[test]
fn reasons_in_words() {
    let axes = [0, 1, 2].map(|axis| Reason::WholeApart(axis).to_string());
    for (text, name) in axes.iter().zip(["x", "y", "z"]) {
        let apart = "the whole line lies apart from the grown box along ";
        assert_eq!(text.strip_prefix(apart), Some(name));
    }
    assert_eq!(Reason::Segment(41).to_string(), "crosses at segment 41");
    assert_eq!(
        Reason::RunsApart.to_string(),
        "every run of 16 segments lies apart from the grown box"
    );
    assert_eq!(
        Reason::NoneMet(32).to_string(),
        "no segment of the runs not apart from the grown box meets it (segments in these runs: 32)"
    );
}

#[test]
fn example_10() {
    let job = example();
    let mut buffer = vec![1.0; geomcore::room(500)];
    let line = geomcore::trace(&job, &mut buffer).unwrap();
    assert_eq!(
        line,
        geomcore::Line {
            count: 5,
            start: 2,
            closing: geomcore::Closing::Open
        }
    );
    assert_eq!(geomcore::check(&job, &buffer, line), Ok(()));
    assert_eq!(buffer[35..], vec![0.0; geomcore::room(500) - 35]);
    assert_eq!(
        geomcore::trace(&job, &mut buffer[1..]).unwrap_err().number,
        8
    );
}

#[test]
fn check_of_a_line() {
    use geomcore::{Closing, Line};
    let job = example();
    // four points of the line where the planes of example 10 meet, the x axis
    let mut buffer = [0.0; 28];
    for (i, x) in [0.0, 0.1, 0.2, 0.3].into_iter().enumerate() {
        buffer[7 * i] = x;
        buffer[7 * i + 3] = x;
        buffer[7 * i + 5] = x;
    }
    let line = |count| Line {
        count,
        start: 0,
        closing: Closing::Open,
    };
    assert_eq!(geomcore::check(&job, &buffer, line(4)), Ok(()));
    assert_eq!(
        geomcore::check(&job, &buffer, line(3)).unwrap_err().number,
        12
    );
    assert_eq!(
        geomcore::check(&job, &buffer[1..], line(4))
            .unwrap_err()
            .number,
        8
    );
    assert_eq!(
        geomcore::check(&job[1..], &buffer, line(4))
            .unwrap_err()
            .number,
        19
    );
    buffer[14] = 0.25;
    let refused = geomcore::check(&job, &buffer, line(4)).unwrap_err();
    assert_eq!((refused.number, refused.index), (13, 2));
}

#[test]
fn functions() {
    assert_eq!(geomcore::sqrt(2.0).to_bits(), 0x3ff6a09e667f3bcd);
    assert_eq!(geomcore::sin(0.0), 0.0);
    assert_eq!(geomcore::cos(0.0), 1.0);
    assert_eq!(geomcore::atan2(0.0, 1.0), 0.0);
}

/// Large angles have fdlibm's values; infinite ones none.
#[test]
fn large_angles() {
    assert_eq!(geomcore::sin(1e22), -0.8522008497671888);
    assert_eq!(geomcore::cos(1e22), 0.523214785395139);
    for x in [f64::INFINITY, f64::NEG_INFINITY, f64::NAN] {
        assert!(geomcore::sin(x).is_nan());
        assert!(geomcore::cos(x).is_nan());
    }
}

/// A line of example 10 to a file and back.
#[test]
fn file_of_example_10() {
    let job = example();
    let mut buffer = vec![1.0; geomcore::room(500)];
    let line = geomcore::trace(&job, &mut buffer).unwrap();
    let mut file = vec![0xa5; geomcore::file_v1_bytes(line.count) + 3];
    assert_eq!(geomcore::write_v1(&buffer, line, &mut file), Ok(290));
    assert_eq!(file[..10], [0, 0, 1, 30, 1, 0, 5, 0, 2, 0]);
    assert_eq!(file[290..], [0xa5; 3]);
    file.truncate(290);
    let mut read = vec![2.0; geomcore::FILE_V1_NUMBERS];
    assert_eq!(geomcore::read_v1(&file, &mut read), Ok(line));
    assert_eq!(read[..35], buffer[..35]);
    assert!(read[35..].iter().all(|x| *x == 2.0));
    assert_eq!(geomcore::check(&job, &read, line), Ok(()));
}

/// Number, round and column of a guess that leads to no meeting, and the zeros that both leave.
#[test]
fn refused_without_a_meeting() {
    let numbers = geomcore::SURFACE_B + 2;
    // A's plane again, one higher: the first solve gives up. B moved along the line, out of reach: round 1 finds nothing nearer.
    let mut parallel = example();
    parallel.copy_within(
        geomcore::SURFACE_A..geomcore::SURFACE_B,
        geomcore::SURFACE_B,
    );
    parallel[numbers + 16..numbers + 24].copy_from_slice(&1f64.to_be_bytes());
    let mut far = example();
    far[numbers..numbers + 8].copy_from_slice(&3f64.to_be_bytes());
    let (at, after) = ("refused 21 in round 0 at column 2", "refused 9 in round 1");
    for (job, number, round, column, text) in [(parallel, 21, 0, 2, at), (far, 9, 1, 0, after)] {
        let mut buffer = vec![0.5; geomcore::room(500) + 1];
        let refused = geomcore::trace(&job, &mut buffer).unwrap_err();
        assert_eq!(
            refused,
            geomcore::Refusal {
                number,
                index: 0,
                round,
                column
            }
        );
        assert_eq!(refused.to_string(), text);
        let (zeros, rest) = buffer.split_at(geomcore::room(500));
        assert!(zeros.iter().all(|x| x.to_bits() == 0) && rest == [0.5]);
    }
}

/// Two planes one apart, by turns along x, y and z: the column names the coordinate.
#[test]
fn the_column_is_a_coordinate() {
    let unit = |k: usize| {
        let mut v = [0.0; 3];
        v[k % 3] = 1.0;
        v
    };
    for apart in 0..3 {
        let mut job = example();
        for surface in [geomcore::SURFACE_A, geomcore::SURFACE_B] {
            for direction in 1..4 {
                let at = surface + 2 + 24 * direction;
                put(&mut job, at, &unit(apart + direction));
            }
        }
        put(&mut job, geomcore::SURFACE_B + 2, &unit(apart));
        let mut buffer = vec![0.5; geomcore::room(500)];
        let refused = geomcore::trace(&job, &mut buffer).unwrap_err();
        assert_eq!((refused.number, refused.round), (21, 0));
        assert_eq!(usize::from(refused.column), apart);
    }
}

/// What the writer refuses, in its order, with nothing written.
#[test]
fn refused_by_the_writer() {
    use geomcore::{Closing, Line};
    let line = |count, start| Line {
        count,
        start,
        closing: Closing::Backward,
    };
    let mut numbers = [0.5; 28];
    let number = |numbers: &[f64], line, room: usize| {
        let mut file = vec![7; room];
        let answer = geomcore::write_v1(numbers, line, &mut file);
        assert!(answer.is_ok() || file == vec![7; room]);
        answer.map_or_else(|refusal| refusal.number, |_| 0)
    };
    assert_eq!(number(&numbers, line(4, 3), 234), 0);
    assert_eq!(number(&numbers, line(3, 0), 234), 20);
    assert_eq!(number(&numbers, line(4, 4), 234), 20);
    assert_eq!(number(&numbers, line(4002, 0), 0), 20);
    assert_eq!(number(&numbers, line(4001, 0), 0), 8);
    assert_eq!(number(&numbers, line(usize::MAX, 0), 0), 20);
    assert_eq!(number(&numbers[1..], line(4, 0), 234), 8);
    assert_eq!(number(&numbers, line(4, 0), 233), 8);
    numbers[27] = f64::INFINITY;
    assert_eq!(number(&numbers, line(4, 0), 233), 8);
    assert_eq!(number(&numbers, line(4, 0), 234), 20);
}

/// What the reader refuses, in its order, with nothing written; -0 and +0 make two files.
#[test]
fn refused_by_the_reader() {
    use geomcore::{Closing, Line};
    let line = Line {
        count: 4,
        start: 1,
        closing: Closing::Open,
    };
    let mut file = vec![0; 234];
    let numbers = [-0.0; 28];
    assert_eq!(geomcore::write_v1(&numbers, line, &mut file), Ok(234));
    let number = |file: &[u8], room: usize| {
        let mut out = vec![3.0; room];
        let answer = geomcore::read_v1(file, &mut out);
        assert!(answer.is_ok() || out == vec![3.0; room]);
        answer.map_or_else(|refusal| refusal.number, |_| 0)
    };
    assert_eq!(number(&file, 28), 0);
    assert_eq!(number(&file, 27), 8);
    assert_eq!(number(&file[..233], 27), 20);
    assert_eq!(number(&[&file[..], &[0]].concat(), 28), 20);
    assert_eq!(number(&[], 0), 20);
    for (at, value) in [(0, 1), (3, 231), (4, 2), (6, 5), (8, 4), (9, 3)] {
        let mut other = file.clone();
        other[at] = value;
        assert_eq!(number(&other, 100), 20, "byte {at}");
    }
    let mut other = file.clone();
    other[226..].copy_from_slice(&f64::NAN.to_be_bytes());
    assert_eq!(number(&other, 27), 20);
    other[226..].copy_from_slice(&0f64.to_be_bytes());
    let mut out = [1.0; 28];
    assert_eq!(geomcore::read_v1(&other, &mut out), Ok(line));
    assert!(out[27].to_bits() == 0 && out[26].to_bits() == 1 << 63);
}
