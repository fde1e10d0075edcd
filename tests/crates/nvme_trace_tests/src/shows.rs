// Statistics and charts of traces.
use crate::examples::CHANGED;
use crate::runs::random_log;
use nvme_arbiter::{Mechanism, Settings};
use nvme_chart::{Form, Style, chart};
use nvme_stats::{Selection, stats};
use nvme_tracer::write_trace;
use std::alloc::Global;
use std::fmt::Write;
use std::test::*;

// Three picks of q1 while q2 waits, and one of q2.
const WAITS: &str = "{\"version\":1,\"mechanism\":\"round-robin\",\"cdw11\":0}
{\"pick\":1,\"n\":1,\"fresh\":false,\"seen\":[[1,\"high\",5],[2,\"low\",0]]}
{\"pick\":1,\"n\":1,\"fresh\":false,\"seen\":[[1,\"high\",4],[2,\"low\",9]]}
{\"pick\":1,\"n\":1,\"fresh\":false,\"seen\":[[1,\"high\",3],[2,\"low\",9]]}
{\"pick\":2,\"n\":1,\"fresh\":false,\"seen\":[[1,\"high\",2],[2,\"low\",9]]}
";

#[test]
fn statistics(rt: HostRuntime) -> Result<(), Fail> {
    let Ok(counted) = stats(rt.alloc(), WAITS.as_bytes(), Selection::ALL, None) else {
        return Err(Fail::from(std::alloc::AllocError));
    };
    let mut text = Vec::new(rt.alloc());
    assert!(rt; counted.write_text(&mut text).is_ok());
    let want = "round-robin: 4 picks, 4 commands, 0 changes of the settings
burst 1
queue class        picks  commands     share  passed over  bound
q1    high             3         3  75.0000%            1     65
q2    low              1         1  25.0000%            2     65
all   high             3         3  75.0000%            1     65
all   low              1         1  25.0000%            2     65
Jain's index of the I/O queues: 0.8000
commands of others between two services of a queue that is ready all the time:
queue      waits        mean       p50       p95       p99       max
q1             2        0.00         0         0         0         0
q2             0           -         -         -         -         -
";
    assert_eq!(rt; text.as_slice(), want.as_bytes());
    let mut json = Vec::new(rt.alloc());
    assert!(rt; counted.write_json(&mut json).is_ok());
    let want =
        "{\"mechanism\":\"round-robin\",\"picks\":4,\"commands\":4,\"changes\":0,\"form\":1,\"from\":1,\"to\":null,\"backlogged\":false,\"queues\":[{\"queue\":1,\"class\":\"high\",\"picks\":3,\"commands\":3,\"share\":0.750000,\"wait\":1,\"below\":65},{\"queue\":2,\"class\":\"low\",\"picks\":1,\"commands\":1,\"share\":0.250000,\"wait\":2,\"below\":65}],\"classes\":[{\"class\":\"high\",\"picks\":3,\"commands\":3,\"share\":0.750000,\"wait\":1,\"below\":65},{\"class\":\"low\",\"picks\":1,\"commands\":1,\"share\":0.250000,\"wait\":2,\"below\":65}],\"low_behind\":{\"commands\":0,\"at_most\":0},\"jain\":0.8000,\"jain_by_weight\":null,\"settings\":{\"burst\":1,\"high\":1,\"medium\":1,\"low\":1},\"settings_at_end\":{\"burst\":1,\"high\":1,\"medium\":1,\"low\":1},\"waits\":[{\"queue\":1,\"waits\":2,\"mean\":0.00,\"p50\":0,\"p95\":0,\"p99\":0,\"max\":0},{\"queue\":2,\"waits\":0,\"mean\":null,\"p50\":null,\"p95\":null,\"p99\":null,\"max\":null}]}\n";
    assert_eq!(rt; json.as_slice(), want.as_bytes());
    Ok(())
}

// The same, where the lines tell that there was room for one command, or for two.
const WAITS_IN_ROOM: &str = "{\"version\":1,\"mechanism\":\"round-robin\",\"cdw11\":0}
{\"pick\":1,\"n\":1,\"room\":1,\"fresh\":false,\"seen\":[[1,\"high\",5],[2,\"low\",0]]}
{\"pick\":1,\"n\":1,\"room\":2,\"fresh\":false,\"seen\":[[1,\"high\",4],[2,\"low\",9]]}
{\"pick\":1,\"n\":1,\"room\":1,\"fresh\":false,\"seen\":[[1,\"high\",3],[2,\"low\",9]]}
{\"pick\":2,\"n\":1,\"fresh\":false,\"seen\":[[1,\"high\",2],[2,\"low\",9]]}
";

#[test]
fn rooms_change_no_numbers(rt: HostRuntime) -> Result<(), Fail> {
    let alloc = rt.alloc();
    assert_eq!(rt;
        table_of(alloc, WAITS_IN_ROOM)?.as_str(),
        table_of(alloc, WAITS)?.as_str()
    );
    assert_eq!(rt;
        drawn(alloc, WAITS_IN_ROOM.as_bytes())?.as_str(),
        drawn(alloc, WAITS.as_bytes())?.as_str()
    );
    Ok(())
}

// Three picks of the low level by a weight of 1: each but the first starts a round.
const ROUNDS: &str = "{\"version\":1,\"mechanism\":\"weighted\",\"cdw11\":0}
{\"pick\":1,\"n\":1,\"fresh\":false,\"seen\":[[1,\"low\",3]]}
{\"pick\":1,\"n\":1,\"fresh\":true,\"seen\":[[1,\"low\",2]]}
{\"pick\":1,\"n\":1,\"fresh\":true,\"seen\":[[1,\"low\",1]]}
";

// The same, where the lines don't tell `fresh`.
const ROUNDS_UNTOLD: &str = "{\"version\":1,\"mechanism\":\"weighted\",\"cdw11\":0}
{\"pick\":1,\"n\":1,\"seen\":[[1,\"low\",3]]}
{\"pick\":1,\"n\":1,\"seen\":[[1,\"low\",2]]}
{\"pick\":1,\"n\":1,\"seen\":[[1,\"low\",1]]}
";

#[test]
fn fresh_may_be_missing(rt: HostRuntime) -> Result<(), Fail> {
    let alloc = rt.alloc();
    assert_eq!(rt;
        table_of(alloc, ROUNDS_UNTOLD)?.as_str(),
        table_of(alloc, ROUNDS)?.as_str()
    );
    let told = drawn(alloc, ROUNDS.as_bytes())?;
    let untold = drawn(alloc, ROUNDS_UNTOLD.as_bytes())?;
    let mut others = String::new(alloc);
    for line in told.as_str().lines() {
        if !line.contains("stroke-dasharray=\"2 3\"") {
            others.push_str(line)?;
            others.push('\n')?;
        }
    }
    assert!(rt; others.len() < told.len(), "{told}");
    assert_eq!(rt; untold.as_str(), others.as_str());
    Ok(())
}

// The table of a text.
fn table_of(alloc: Global, text: &str) -> Result<String, Fail> {
    let Ok(counted) = stats(alloc, text.as_bytes(), Selection::ALL, None) else {
        return Err(Fail::from(std::alloc::AllocError));
    };
    let mut table = Vec::new(alloc);
    if counted.write_text(&mut table).is_err() {
        return Err(Fail::from(std::alloc::AllocError));
    }
    let Ok(table) = String::from_utf8(table) else {
        return Err(Fail::from(std::alloc::AllocError));
    };
    Ok(table)
}

// Four commands of queue 1 in two classes, and none of queue 4.
const ANEW: &str = "{\"version\":1,\"mechanism\":\"round-robin\",\"cdw11\":0}
{\"pick\":1,\"n\":1,\"fresh\":false,\"seen\":[[1,\"high\",1],[4,\"low\",0]]}
{\"pick\":1,\"n\":3,\"fresh\":false,\"seen\":[[1,\"low\",5],[4,\"low\",0]]}
";

#[test]
fn a_queue_in_two_classes_is_one(rt: HostRuntime) -> Result<(), Fail> {
    let table = table_of(rt.alloc(), ANEW)?;
    assert!(rt;
        table
            .as_str()
            .contains("\nJain's index of the I/O queues: 0.5000\n"),
        "{table}"
    );
    Ok(())
}

// After two commands of High, a pick of an urgent queue with nothing waiting ends the row, and so does one of a queue
// that isn't seen.
const BEHIND: &str = "{\"version\":1,\"mechanism\":\"weighted\",\"cdw11\":0}
{\"pick\":2,\"n\":2,\"fresh\":false,\"seen\":[[1,\"urgent\",0],[2,\"high\",9],[3,\"low\",9]]}
{\"pick\":1,\"n\":9,\"fresh\":false,\"seen\":[[1,\"urgent\",0],[2,\"high\",7],[3,\"low\",9]]}
{\"pick\":2,\"n\":1,\"fresh\":false,\"seen\":[[1,\"urgent\",0],[2,\"high\",7],[3,\"low\",9]]}
{\"pick\":8,\"n\":5,\"fresh\":false,\"seen\":[[1,\"urgent\",0],[2,\"high\",6],[3,\"low\",9]]}
{\"pick\":2,\"n\":1,\"fresh\":false,\"seen\":[[1,\"urgent\",0],[2,\"high\",6],[3,\"low\",9]]}
";

#[test]
fn other_picks_end_a_row_of_high(rt: HostRuntime) -> Result<(), Fail> {
    let table = table_of(rt.alloc(), BEHIND)?;
    for line in [
        "weighted: 5 picks, 18 commands, 0 changes of the settings\n",
        "\nq2    high             3         4  22.2222%            0     64\n",
        "\nlow behind high and medium: 2 commands, at most 4\n",
    ] {
        assert!(rt; table.as_str().contains(line), "{table}");
    }
    Ok(())
}

// Queue 8 isn't seen where it is picked.
const UNSEEN: &str = "{\"version\":1,\"mechanism\":\"round-robin\",\"cdw11\":0}
{\"pick\":8,\"n\":1,\"fresh\":false,\"seen\":[[1,\"high\",5]]}
{\"pick\":8,\"n\":1,\"fresh\":false,\"seen\":[[1,\"high\",5]]}
{\"pick\":1,\"n\":2,\"fresh\":false,\"seen\":[[1,\"high\",5]]}
";

#[test]
fn queues_wait_by_a_pick_of_none_that_is_seen(rt: HostRuntime) -> Result<(), Fail> {
    let table = table_of(rt.alloc(), UNSEEN)?;
    let want = "round-robin: 3 picks, 4 commands, 0 changes of the settings
burst 1
queue class        picks  commands     share  passed over  bound
q1    high             1         2  50.0000%            2     65
all   high             1         2  50.0000%            2     65
Jain's index of the I/O queues: 1.0000
";
    assert!(rt; table.as_str().starts_with(want), "{table}");
    Ok(())
}

// The levels wait at all picks but the last, and the urgent queue at the first alone.
const BESIDE_URGENT: &str = "{\"version\":1,\"mechanism\":\"weighted\",\"cdw11\":0}
{\"pick\":1,\"n\":1,\"fresh\":false,\"seen\":[[1,\"urgent\",1],[2,\"high\",2],[3,\"low\",1]]}
{\"pick\":2,\"n\":1,\"fresh\":false,\"seen\":[[1,\"urgent\",0],[2,\"high\",2],[3,\"low\",1]]}
{\"pick\":3,\"n\":1,\"fresh\":false,\"seen\":[[1,\"urgent\",0],[2,\"high\",1],[3,\"low\",1]]}
{\"pick\":2,\"n\":1,\"fresh\":false,\"seen\":[[1,\"urgent\",0],[2,\"high\",1],[3,\"low\",0]]}
";

#[test]
fn urgent_queues_need_not_wait_at_picks_of_levels(rt: HostRuntime) -> Result<(), Fail> {
    let selection = Selection {
        first: 1,
        last: u64::MAX,
        backlogged: true,
    };
    let Ok(counted) = stats(rt.alloc(), BESIDE_URGENT.as_bytes(), selection, None) else {
        return Err(Fail::from(std::alloc::AllocError));
    };
    let mut table = Vec::new(rt.alloc());
    assert!(rt; counted.write_text(&mut table).is_ok());
    let want = "weighted: 3 picks, 3 commands, 0 changes of the settings
burst 1, high 1, medium 1, low 1
of picks at which each I/O queue has waiting commands, the urgent ones aside where a level is picked
queue class        picks  commands     share  passed over  bound
q1    urgent           1         1  33.3333%            0     64
q2    high             1         1  33.3333%            0     64
q3    low              1         1  33.3333%            0     64
";
    assert!(rt; table.as_slice().starts_with(want.as_bytes()));
    assert_eq!(rt; counted.last_before(), None);
    Ok(())
}

// The picture of a text.
fn drawn(alloc: Global, text: &[u8]) -> Result<String, Fail> {
    let Ok(picture) = chart(alloc, text, Selection::ALL, Style::COMMON) else {
        return Err(Fail::from(std::alloc::AllocError));
    };
    let mut svg = Vec::new(alloc);
    if picture.write_svg(&mut svg).is_err() {
        return Err(Fail::from(std::alloc::AllocError));
    }
    let Ok(svg) = String::from_utf8(svg) else {
        return Err(Fail::from(std::alloc::AllocError));
    };
    Ok(svg)
}

#[test]
fn charts(rt: HostRuntime) -> Result<(), Fail> {
    let svg = drawn(rt.alloc(), CHANGED.as_bytes())?;
    for part in [
        "<svg xmlns=",
        "weighted: 3 picks, 6 commands",
        "A bar is one pick",
        ">q0 admin<",
        ">q1 high<",
        ">q4 low<",
        "</svg>\n",
    ] {
        assert!(rt; svg.as_str().contains(part), "{part}");
    }
    Ok(())
}

// How many lines of changes of the settings a picture has, its legend aside.
fn changes_drawn(alloc: Global, text: &str) -> Result<usize, Fail> {
    let svg = drawn(alloc, text.as_bytes())?;
    Ok(svg.as_str().matches(" 72V").count())
}

#[test]
fn changes_behind_the_first_pick_are_drawn(rt: HostRuntime) -> Result<(), Fail> {
    let head = "{\"version\":1,\"mechanism\":\"weighted\",\"cdw11\":0}\n";
    let set = "{\"set\":1}\n";
    let pick = "{\"pick\":1,\"n\":1,\"fresh\":false,\"seen\":[[1,\"high\",5]]}\n";
    for (events, want) in [
        (["", "", ""], 0),
        ([set, "", ""], 0),
        ([pick, "", ""], 0),
        ([pick, set, ""], 1),
        ([set, pick, ""], 0),
        ([set, pick, set], 1),
        ([pick, set, pick], 1),
        ([pick, set, set], 1),
    ] {
        let [first, second, third] = events;
        let text = format!(in rt.alloc(); "{head}{first}{second}{third}")?;
        assert_eq!(rt; changes_drawn(rt.alloc(), text.as_str())?, want, "{text}");
    }
    Ok(())
}

// A trace of this many picks, which see all queues in all classes in turn.
fn wide_trace(alloc: Global, picks: u32) -> Result<String, Fail> {
    let mut text = String::new(alloc);
    writeln!(
        text,
        "{{\"version\":1,\"mechanism\":\"weighted\",\"cdw11\":0}}"
    )?;
    let classes = ["urgent", "high", "medium", "low"];
    for pick in 0..picks {
        let class = classes[(pick % 4) as usize];
        write!(
            text,
            "{{\"pick\":{},\"n\":1,\"fresh\":false,\"seen\":[",
            pick % 64 + 1
        )?;
        for qid in 1..64 {
            write!(text, "[{qid},\"{class}\",1],")?;
        }
        writeln!(text, "[64,\"{class}\",1]]}}")?;
    }
    Ok(text)
}

#[test]
fn charts_of_many_rows_have_fewer_columns(rt: HostRuntime) -> Result<(), Fail> {
    let text = wide_trace(rt.alloc(), 280)?;
    let svg = drawn(rt.alloc(), text.as_bytes())?;
    assert!(rt; svg.as_str().contains("weighted: 280 picks, 280 commands"));
    assert!(rt; svg.as_str().contains("A bar sums up 2 picks in a row"));
    // (a bar for each of its picks' rows, since two picks in a row are of two queues, and the four classes and the
    // ground)
    assert_eq!(rt; svg.as_str().matches("<rect ").count(), 280 + 5);
    Ok(())
}

#[test]
fn long_charts(rt: HostRuntime) -> Result<(), Fail> {
    let settings = Settings::from_cdw11(0x0301_0002);
    let log = random_log(rt.alloc(), Mechanism::Weighted, settings, 1, 6_000)?;
    let mut text = Vec::new(rt.alloc());
    assert!(rt; write_trace(Mechanism::Weighted, settings, log.as_slice(), &mut text).is_ok());
    let svg = drawn(rt.alloc(), text.as_slice())?;
    for part in [
        "A curve is the share of the commands of a window of 128 picks.",
        ">share of commands<",
        ">picks<",
        ">100 %<",
        ">settings change<",
    ] {
        assert!(rt; svg.as_str().contains(part), "{part}");
    }
    Ok(())
}

// The picture of picks of a text in a style.
fn drawn_in(alloc: Global, text: &str, selection: Selection, style: Style) -> Result<String, Fail> {
    let Ok(picture) = chart(alloc, text.as_bytes(), selection, style) else {
        return Err(Fail::from(std::alloc::AllocError));
    };
    let mut svg = Vec::new(alloc);
    if picture.write_svg(&mut svg).is_err() {
        return Err(Fail::from(std::alloc::AllocError));
    }
    let Ok(svg) = String::from_utf8(svg) else {
        return Err(Fail::from(std::alloc::AllocError));
    };
    Ok(svg)
}

// The picks from one on.
fn from(first: u64) -> Selection {
    Selection {
        first,
        ..Selection::ALL
    }
}

#[test]
fn changes_before_the_first_pick_are_not_drawn(rt: HostRuntime) -> Result<(), Fail> {
    // (its third pick is behind the change, and the settings are those of the change)
    let svg = drawn_in(rt.alloc(), CHANGED, from(3), Style::COMMON)?;
    let title = ">weighted: 1 pick, 3 commands; burst 4, high 3, medium 1, low 2<";
    assert!(rt; svg.as_str().contains(title), "{svg}");
    assert_eq!(rt; svg.as_str().matches(" 72V").count(), 0);
    assert!(rt; !svg.as_str().contains("settings change"));
    // (a second pick before the change)
    let svg = drawn_in(rt.alloc(), CHANGED, from(2), Style::COMMON)?;
    let title = "; at first burst 2, high 4, medium 2, low 1<";
    assert!(rt; svg.as_str().contains(title), "{svg}");
    assert_eq!(rt; svg.as_str().matches(" 72V").count(), 1);
    Ok(())
}

#[test]
fn charts_of_no_pick_say_why(rt: HostRuntime) -> Result<(), Fail> {
    let svg = drawn_in(rt.alloc(), CHANGED, from(9), Style::COMMON)?;
    assert!(rt;
        svg.as_str()
            .contains(">--from 9 is behind the last pick, 3<"),
        "{svg}"
    );
    let head = "{\"version\":1,\"mechanism\":\"round-robin\",\"cdw11\":0}";
    let svg = drawn_in(rt.alloc(), head, Selection::ALL, Style::COMMON)?;
    assert!(rt;
        svg.as_str().contains(">There is no pick to draw.<"),
        "{svg}"
    );
    assert!(rt; !svg.as_str().contains("the highest has"));
    Ok(())
}

#[test]
fn charts_of_few_picks_have_curves_where_asked(rt: HostRuntime) -> Result<(), Fail> {
    let style = Style {
        form: Form::Curves,
        admin: false,
    };
    let svg = drawn_in(rt.alloc(), CHANGED, Selection::ALL, style)?;
    for part in [
        "A curve is the share of the commands of a window of 1 pick.",
        ">weighted: 3 picks, 6 commands;",
        "<title>q1 high 100.00 %</title></polyline>",
        "<title>pick 2: q1 high 100.00 %</title>",
    ] {
        assert!(rt; svg.as_str().contains(part), "{part}: {svg}");
    }
    // (neither the row of the admin queue, nor its pick)
    assert!(rt; svg.as_str().contains("The admin queue is left out."));
    assert!(rt; !svg.as_str().contains("q0"), "{svg}");
    assert!(rt; !svg.as_str().contains("<title>pick 1:"), "{svg}");
    Ok(())
}

// A trace under round robin of picks of queues in turn. From pick 65 on the last queue has nothing waiting, and isn't
// picked.
fn turns(alloc: Global, queues: u32, picks: u32) -> Result<String, Fail> {
    let mut text = String::new(alloc);
    writeln!(
        text,
        "{{\"version\":1,\"mechanism\":\"round-robin\",\"cdw11\":0}}"
    )?;
    for pick in 0..picks {
        let among = if pick < 64 {
            queues
        } else {
            queues.saturating_sub(1)
        };
        let qid = pick.checked_rem(among).unwrap_or(0);
        write!(
            text,
            "{{\"pick\":{},\"n\":1,\"fresh\":false,\"seen\":[",
            qid.saturating_add(1)
        )?;
        for other in 1..queues {
            write!(text, "[{other},\"high\",9],")?;
        }
        let left = if pick < 64 { 9 } else { 0 };
        writeln!(text, "[{queues},\"high\",{left}]]}}")?;
    }
    Ok(text)
}

// How many points the curve of a queue has.
fn points_of(svg: &str, name: &str) -> Option<usize> {
    let end = svg.find(name)?;
    let curve = svg.get(..end)?;
    let begin = curve.rfind("points=\"")?;
    Some(curve.get(begin..)?.matches(",").count())
}

#[test]
fn curves_end_where_queues_end(rt: HostRuntime) -> Result<(), Fail> {
    let style = Style {
        form: Form::Curves,
        admin: true,
    };
    // (windows of 16 picks, of which the last queue waits in four)
    let text = turns(rt.alloc(), 2, 256)?;
    let svg = drawn_in(rt.alloc(), text.as_str(), Selection::ALL, style)?;
    assert_eq!(rt; points_of(svg.as_str(), "\"><title>q1 87.50 %<"), Some(16));
    assert_eq!(rt; points_of(svg.as_str(), "\"><title>q2 12.50 %<"), Some(4));
    // (and a dot ends its curve)
    assert_eq!(rt; svg.as_str().matches("<circle ").count(), 16 + 4 + 1 + 1);
    assert!(rt; svg.as_str().contains(">no more commands<"));
    Ok(())
}

#[test]
fn many_queues_have_names(rt: HostRuntime) -> Result<(), Fail> {
    let style = Style {
        form: Form::Curves,
        admin: true,
    };
    let text = turns(rt.alloc(), 10, 100)?;
    let svg = drawn_in(rt.alloc(), text.as_str(), Selection::ALL, style)?;
    // (ten turns of six picks and four more before pick 65, and then nine queues in turn: pick 64 is of the second)
    for part in [">q10</text>", "<title>q10 6.00 %</title>", ">6.00 %</text>"] {
        assert!(rt; svg.as_str().contains(part), "{part}: {svg}");
    }
    assert_eq!(rt; svg.as_str().matches("<polyline").count(), 10);
    // (a dot where the tenth queue ends, and one in the legend)
    assert_eq!(rt; svg.as_str().matches("<circle").count(), 2);
    Ok(())
}

#[test]
fn axes_have_round_numbers(rt: HostRuntime) -> Result<(), Fail> {
    let text = turns(rt.alloc(), 2, 1_200)?;
    let svg = drawn_in(rt.alloc(), text.as_str(), Selection::ALL, Style::COMMON)?;
    for part in [">200</text>", ">1,000</text>", ">1,200</text>"] {
        assert!(rt; svg.as_str().contains(part), "{part}");
    }
    assert!(rt; !svg.as_str().contains(">201</text>"));
    Ok(())
}

#[test]
fn curves_begin_at_300_picks(rt: HostRuntime) -> Result<(), Fail> {
    for (picks, curves) in [(299, 0), (300, 2)] {
        let text = turns(rt.alloc(), 2, picks)?;
        let svg = drawn_in(rt.alloc(), text.as_str(), Selection::ALL, Style::COMMON)?;
        assert_eq!(rt;
            svg.as_str().matches("<polyline").count(),
            curves,
            "{picks}"
        );
    }
    Ok(())
}

#[test]
fn equal_curves_are_apart(rt: HostRuntime) -> Result<(), Fail> {
    // (windows of 16 picks of four queues, which have a quarter each: 270 pixels below the top at 84)
    let text = turns(rt.alloc(), 5, 320)?;
    let part = from(65);
    let style = Style {
        form: Form::Curves,
        admin: true,
    };
    let svg = drawn_in(rt.alloc(), text.as_str(), part, style)?;
    for y in [",349.5 ", ",352.5 ", ",355.5 ", ",358.5 "] {
        assert_eq!(rt; svg.as_str().matches(y).count(), 16, "{y}");
    }
    Ok(())
}
