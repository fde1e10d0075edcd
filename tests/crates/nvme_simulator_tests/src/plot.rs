// Logarithms and places are those of Python, worked out with 60 digits; labels are written by hand.
use nvme_plot::{
    Axis, Bar, Curve, Entry, Grouped, Guide, Legend, Mark, Micros, Panel, Picture, Point, Range,
    Scale, WHOLE, Written, log2, span_of,
};
use std::alloc::{AllocError, Global};
use std::test::Fail;

#[test]
fn logarithms_are_cut_off(rt: HostRuntime) {
    let rows = [
        (0, 0),
        (1, 0),
        (2, 4_294_967_296),
        (3, 6_807_362_105),
        (7, 12_057_497_578),
        (10, 14_267_572_527),
        (1_023, 42_943_618_901),
        (1_024, 42_949_672_960),
        (68_273_000, 111_775_715_614),
        (999_999_999_999, 171_210_870_326),
        (WHOLE, 256_816_305_489),
        (1 << 63, 270_582_939_648),
        ((1 << 63) - 1, 270_582_939_647),
        (u64::MAX, 274_877_906_943),
    ];
    for (number, logarithm) in rows {
        assert_eq!(rt; log2(number), logarithm);
    }
}

#[test]
fn places_are_the_nearest_hundredths(rt: HostRuntime) {
    let rows = [
        (1, 10, 3, 1_000, 477),
        (50_000_000, 2_000_000_000, 68_273_000, 80_000, 6_755),
        (50_000_000, 2_000_000_000, 1_397_757_000, 80_000, 72_230),
        (10_000_000, 10_000_000_000, 386_569_000, 71_000, 37_564),
        (
            29_575_298_710_516,
            WHOLE,
            1_000_000_000_000_000,
            40_000,
            13_504,
        ),
        (29_575_298_710_516, WHOLE, WHOLE / 2, 40_000, 37_341),
        (1, u64::MAX, 1 << 32, 100_000, 50_000),
        (10, 20, 5, 100, 0),
        (10, 20, 30, 100, 100),
        (1, 10, 0, 100, 0),
    ];
    for (low, high, value, length, place) in rows {
        let range = Range {
            scale: Scale::Logarithmic,
            low,
            high,
        };
        assert_eq!(rt; range.place(value, length), place);
    }
    let linear = Range {
        scale: Scale::Linear,
        low: 10,
        high: 13,
    };
    let places = [9, 10, 11, 12, 13, 14].map(|value| linear.place(value, 100));
    assert_eq!(rt; places, [0, 0, 33, 67, 100, 100]);
}

#[test]
fn numbers_have_groups(rt: HostRuntime) -> Result<(), Fail> {
    let rows = [
        (0, "0"),
        (999, "999"),
        (1_000, "1,000"),
        (1_000_005, "1,000,005"),
        (u64::MAX, "18,446,744,073,709,551,615"),
    ];
    for (number, text) in rows {
        let number = Grouped(number);
        assert_eq!(rt; format!(in rt.alloc(); "{number}")?.as_str(), text);
    }
    for (time, text) in [(1_200_919_500, "1,200.920"), (499, "0.000"), (0, "0.000")] {
        let time = Micros(time);
        assert_eq!(rt; format!(in rt.alloc(); "{time}")?.as_str(), text);
    }
    Ok(())
}

// The labels of an axis, with a blank between them.
fn labels(alloc: Global, axis: &Axis) -> Result<String, AllocError> {
    let mut text = String::new(alloc);
    for tick in &axis.ticks {
        if let Some(label) = &tick.label {
            if !text.is_empty() {
                text.push_str(", ")?;
            }
            text.push_str(label.as_str())?;
        }
    }
    Ok(text)
}

#[test]
fn ticks_are_round(rt: HostRuntime) -> Result<(), Fail> {
    let alloc = rt.alloc();
    let times = Axis::of_times(alloc, "latency", 68_273_000, 1_397_757_000)?;
    assert_eq!(rt;
        labels(alloc, &times)?.as_str(),
        "50 us, 100 us, 200 us, 500 us, 1 ms, 2 ms"
    );
    assert_eq!(rt;
        (times.range.low, times.range.high),
        (50_000_000, 2_000_000_000)
    );
    let times = Axis::of_times(alloc, "latency", 1_500_000, 30_000_000_000)?;
    assert_eq!(rt;
        labels(alloc, &times)?.as_str(),
        "1 us, 10 us, 100 us, 1 ms, 10 ms"
    );
    let times = Axis::of_times(alloc, "latency", 100_000_000, 100_000_000)?;
    assert_eq!(rt; labels(alloc, &times)?.as_str(), "100 us, 200 us");
    let times = Axis::of_times(alloc, "latency", 1, 999_999_999_999)?;
    assert_eq!(rt;
        labels(alloc, &times)?.as_str(),
        "1 ps, 1 ns, 1 us, 1 ms, 1 s"
    );
    let times = Axis::from_zero(alloc, "mean", 1_397_757_000)?;
    assert_eq!(rt; labels(alloc, &times)?.as_str(), "0, 500, 1,000, 1,500");
    assert_eq!(rt; times.title.as_str(), "mean in us");
    let times = Axis::from_zero(alloc, "mean", 0)?;
    assert_eq!(rt; labels(alloc, &times)?.as_str(), "0, 1");
    let shares = Axis::of_shares(alloc, "share", 33_812)?;
    assert_eq!(rt;
        labels(alloc, &shares)?.as_str(),
        "100 %, 10 %, 1 %, 0.1 %, 0.01 %"
    );
    let names = Axis::of_names(alloc, "burst", &["1", "8", "none"], 355)?;
    assert_eq!(rt; labels(alloc, &names)?.as_str(), "1, 8, none");
    let names = Axis::of_names(alloc, "burst", &["1", "8", "none"], 40)?;
    assert_eq!(rt; labels(alloc, &names)?.as_str(), "1");
    Ok(())
}

// Values as they are written, in hundredths.
const LOADS: [Written; 5] = [
    Written {
        at: 50,
        text: "0.5",
    },
    Written {
        at: 70,
        text: "0.7",
    },
    Written {
        at: 80,
        text: "0.8",
    },
    Written {
        at: 90,
        text: "0.90",
    },
    Written {
        at: 95,
        text: "0.95",
    },
];

// A range of 45 has 2 more on each side. On 98 pixels the values stand at 4, 44, 64, 84 and 94, and half a label has 14 pixels, or
// 17.5: that of 0.8 would touch that of 0.7, which ends at 58, and so would that of 0.95.
#[test]
fn values_stand_where_they_are(rt: HostRuntime) -> Result<(), Fail> {
    let alloc = rt.alloc();
    let loads = Axis::of_values(alloc, "load", &LOADS, 355)?;
    assert_eq!(rt;
        labels(alloc, &loads)?.as_str(),
        "0.5, 0.7, 0.8, 0.90, 0.95"
    );
    assert_eq!(rt;
        (loads.range.scale, loads.range.low, loads.range.high),
        (Scale::Linear, 48, 97)
    );
    let loads = Axis::of_values(alloc, "load", &LOADS, 98)?;
    assert_eq!(rt; labels(alloc, &loads)?.as_str(), "0.5, 0.7, 0.90");
    assert_eq!(rt; loads.ticks.len(), 5);
    let depths = [(8, "8"), (64, "64"), (80, "80")].map(|(at, text)| Written { at, text });
    let depths = Axis::of_values(alloc, "depth", &depths, 355)?;
    assert_eq!(rt;
        (depths.range.scale, depths.range.low, depths.range.high),
        (Scale::Logarithmic, 7, 90)
    );
    let one = Axis::of_values(alloc, "depth", &LOADS[..1], 355)?;
    assert_eq!(rt;
        (one.range.scale, one.range.low, one.range.high),
        (Scale::Linear, 49, 51)
    );
    Ok(())
}

// A curve of two points and a gap, whose second point has an error bar.
fn curve(alloc: Global) -> Result<Curve, AllocError> {
    let points = [(1, 10, false), (3, 40, true), (5, 30, false)];
    let mut curve = Curve {
        style: 1,
        shift: -350,
        tip: String::from_str(alloc, "a < b")?,
        points: Vec::new(alloc),
        marks: Vec::new(alloc),
    };
    for (x, y, joined) in points {
        curve.points.push(Point { x, y, joined })?;
    }
    curve.marks.push(Mark {
        x: 3,
        y: 40,
        bar: Some(Bar { low: 20, high: 50 }),
        tip: String::from_str(alloc, "40 +- 10")?,
    })?;
    Ok(curve)
}

// A picture of one panel over three names, from 0 to 50 ps.
fn picture(alloc: Global) -> Result<Picture, AllocError> {
    let mut panel = Panel {
        x: Axis::of_names(alloc, "burst", &["1", "8", "none"], span_of(1))?,
        y: Axis::from_zero(alloc, "mean", 50)?,
        guides: Vec::new(alloc),
        curves: Vec::new(alloc),
    };
    panel.guides.push(Guide {
        at: 25,
        label: "half",
    })?;
    panel.curves.push(curve(alloc)?)?;
    let mut legend = Legend {
        titles: Vec::new(alloc),
        entries: Vec::new(alloc),
    };
    legend.titles.push("commands")?;
    let mut cells = Vec::new(alloc);
    cells.push(String::from_str(alloc, "1,000")?)?;
    legend.entries.push(Entry {
        style: 1,
        name: String::from_str(alloc, "a < b")?,
        cells,
    })?;
    let mut panels = Vec::new(alloc);
    panels.push(panel)?;
    let mut notes = Vec::new(alloc);
    notes.push(String::from_str(alloc, "digest 0a1b")?)?;
    Ok(Picture {
        title: String::from_str(alloc, "R & D")?,
        notes,
        panels,
        legend,
    })
}

// The panel begins at 80 and is 800 wide, so that the names stand at a sixth, a half and five sixths of it, from where the curve
// is moved 3.5 to the left. It ends 400 below 62, which are 8 for each picosecond.
#[test]
fn a_picture_is_drawn(rt: HostRuntime) -> Result<(), Fail> {
    let mut svg = Vec::new(rt.alloc());
    picture(rt.alloc())?.write_svg(&mut svg)?;
    let text = std::str::from_utf8(svg.as_slice()).unwrap_or("");
    for part in [
        "<svg xmlns=\"http://www.w3.org/2000/svg\" width=\"930\" ",
        ">R &amp; D</text>",
        ">digest 0a1b</text>",
        "stroke=\"#d55e00\" stroke-width=\"2\" stroke-dasharray=\"9 4\" stroke-linejoin=\"round\" d=\"M209.83 382.00L476.50 142.00M743.17 222.00\"><title>a &lt; b</title></path>\n",
        "d=\"M476.50 302.00V62.00M472.50 302.00h8.00M472.50 62.00h8.00\"/>\n",
        "<circle cx=\"476.50\" cy=\"142.00\" r=\"3.5\" fill=\"#d55e00\"><title>40 +- 10</title></circle>\n",
        "<path d=\"M80 262.00H880\" stroke=\"#777777\" stroke-dasharray=\"1 3\"/><text x=\"886\" y=\"266.00\" fill=\"#555555\">half</text>\n",
        ">mean in ps</text>",
        ">burst</text>",
        " text-anchor=\"end\">1,000</text>\n",
        "</svg>\n",
    ] {
        assert!(rt; text.contains(part));
    }
    Ok(())
}

#[test]
fn a_write_that_fails_is_told(rt: HostRuntime) -> Result<(), Fail> {
    let mut room = [0; 4];
    assert!(rt;
        picture(rt.alloc())?
            .write_svg(&mut room.as_mut_slice())
            .is_err()
    );
    Ok(())
}
