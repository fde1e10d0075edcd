// Times are worked out by hand: a Windows filetime counts 100,000 ps, a microsecond 1,000,000 ps, and a nanosecond 1,000 ps.
use nvme_load::{Operation, Request};
use nvme_replay::{
    FileFault, Form, LineFault, Lined, ReplayError, Served, Speed, Wanted, replay_of, requests_in,
};
use std::test::Fail;

// What is read of a file: a line for each request, or the fault as it is told.
fn read(rt: &HostRuntime, form: Form, queue: u64, text: &str) -> Result<String, Fail> {
    let mut told = String::new(rt.alloc());
    match requests_in(rt.alloc(), form, queue, text.as_bytes()) {
        Ok(requests) => {
            for Lined { line, request } in &requests {
                let Request {
                    at,
                    operation,
                    block,
                    blocks,
                } = request;
                let row = format!(in rt.alloc(); "{line}: {at} {operation:?} {block} {blocks}\n")?;
                told.push_str(row.as_str())?;
            }
        }
        Err(error) => {
            let fault = FileFault { file: "f", error };
            told.push_str(format!(in rt.alloc(); "{fault}\n")?.as_str())?;
        }
    }
    Ok(told)
}

const MSR: &str = "128166372000000000,host,0,Write,4096,4096,1000
128166372000000025,host,0,Read,8192,512,20000
128166372000000025,host,1,Read,33554432,33554432,100
";

#[test]
fn msr_counts_from_the_first_line(rt: HostRuntime) -> Result<(), Fail> {
    let requests = "1: 0 Write 8 8\n2: 2500000 Read 16 1\n3: 2500000 Read 65536 65536\n";
    assert_eq!(rt; read(&rt, Form::Msr, 1, MSR)?.as_str(), requests);
    let named = "Timestamp,Hostname,DiskNumber,Type,Offset,Size,ResponseTime\n7,a,0,read,0,512,1\n";
    assert_eq!(rt; read(&rt, Form::Msr, 1, named)?.as_str(), "2: 0 Read 0 1\n");
    Ok(())
}

// Lines that stand in another order than their times, that end as on Windows, and that are blank.
#[test]
fn lines_are_put_in_order(rt: HostRuntime) -> Result<(), Fail> {
    let text =
        "30,a,0,Read,0,512,1\r\n\r\n10,a,0,Write,512,512,1\r\n10,a,0,Read,1024,512,1\n\n20,a,0,Flush,0,0,1\n";
    let fault = "f:6: expected Read or Write as Type\n";
    assert_eq!(rt; read(&rt, Form::Msr, 1, text)?.as_str(), fault);
    let text = text.strip_suffix("20,a,0,Flush,0,0,1\n").unwrap_or("");
    let requests = "3: 0 Write 1 1\n4: 0 Read 2 1\n1: 2000000 Read 0 1\n";
    assert_eq!(rt; read(&rt, Form::Msr, 1, text)?.as_str(), requests);
    Ok(())
}

#[test]
fn faults_of_msr(rt: HostRuntime) -> Result<(), Fail> {
    for (text, fault) in [
        ("", "f: expected a request to replay\n"),
        (
            "x,a,0,Read,0,512,1\n",
            "f:1: expected a whole number below 2^64 as Timestamp\n",
        ),
        (
            "1,a,0,Read,0\n",
            "f:1: expected a whole number below 2^64 as Size\n",
        ),
        (
            "1,a,0,Read,,512,1\n",
            "f:1: expected a whole number below 2^64 as Offset\n",
        ),
        (
            "1,a,0,Read,18446744073709551616,512,1\n",
            "f:1: expected a whole number below 2^64 as Offset\n",
        ),
        (
            "1,a,0,Read,0,512,1\n1,a,0,Read,100,512,1\n",
            "f:2: expected an offset and a size of whole blocks, 512 bytes each\n",
        ),
        (
            "1,a,0,Read,0,0,1\n",
            "f:1: expected 1 to 65536 blocks, 512 bytes each\n",
        ),
        (
            "1,a,0,Read,0,33554944,1\n",
            "f:1: expected 1 to 65536 blocks, 512 bytes each\n",
        ),
        (
            "1,a,0,Read,0,512,1\n184467440737097,a,0,Read,0,512,1\n",
            "f:2: expected less than 2^64 picoseconds, which are 213 days, from the first request on\n",
        ),
    ] {
        assert_eq!(rt; read(&rt, Form::Msr, 1, text)?.as_str(), fault);
    }
    Ok(())
}

#[test]
fn alibaba_counts_microseconds(rt: HostRuntime) -> Result<(), Fail> {
    let text = "419,W,8192,4096,1577808000000626\n725,R,0,16384,1577808000001626\n";
    let requests = "1: 0 Write 16 8\n2: 1000000000 Read 0 32\n";
    assert_eq!(rt; read(&rt, Form::Alibaba, 1, text)?.as_str(), requests);
    let named = "device_id,opcode,offset,length,timestamp\n419,T,0,4096,1\n";
    let fault = "f:2: expected R or W as opcode\n";
    assert_eq!(rt; read(&rt, Form::Alibaba, 1, named)?.as_str(), fault);
    let short = "419,R,0,4096\n";
    let fault = "f:1: expected a whole number below 2^64 as timestamp\n";
    assert_eq!(rt; read(&rt, Form::Alibaba, 1, short)?.as_str(), fault);
    Ok(())
}

// Commands end in another order than they came in, and two came at one time.
const LOG: &str =
    "queue,number,operation,block,blocks,channel,came_ps,submitted_ps,picked_ps,started_ps,done_ps
1,0,read,16,8,0,500,500,500,500,900
2,0,write,0,4,1,600,600,600,600,950
1,2,flush,0,0,1,700,700,700,700,960
1,1,write,8,8,0,700,700,700,900,990
";

#[test]
fn logs_have_their_own_times(rt: HostRuntime) -> Result<(), Fail> {
    let requests = "2: 500 Read 16 8\n5: 700 Write 8 8\n4: 700 Flush 0 0\n";
    assert_eq!(rt; read(&rt, Form::Csv, 1, LOG)?.as_str(), requests);
    assert_eq!(rt;
        read(&rt, Form::Csv, 2, LOG)?.as_str(),
        "3: 600 Write 0 4\n"
    );
    let none = "f: expected a request to replay\n";
    assert_eq!(rt; read(&rt, Form::Csv, 3, LOG)?.as_str(), none);
    assert_eq!(rt; read(&rt, Form::Csv, 3, "")?.as_str(), none);
    let columns = "came_ps,blocks,block,operation,number,queue,more\n7,1,2,read,0,1,x\n";
    assert_eq!(rt;
        read(&rt, Form::Csv, 1, columns)?.as_str(),
        "2: 7 Read 2 1\n"
    );
    Ok(())
}

#[test]
fn faults_of_logs(rt: HostRuntime) -> Result<(), Fail> {
    let names = "queue,number,operation,block,blocks,came_ps\n";
    for (text, fault) in [
        (
            "1,0,trim,0,8,5\n",
            "f:2: expected read, write or flush as operation\n",
        ),
        (
            "1,0,read,0,0,5\n",
            "f:2: expected 1 to 65536 blocks, 512 bytes each\n",
        ),
        (
            "1,0,read,-1,8,5\n",
            "f:2: expected a whole number below 2^64 as block\n",
        ),
        (
            "1,0,read,0,8\n",
            "f:2: expected a whole number below 2^64 as came_ps\n",
        ),
        (
            "1,,read,0,8,5\n",
            "f:2: expected a whole number below 2^64 as number\n",
        ),
        (
            "q,0,read,0,8,5\n",
            "f:2: expected a whole number below 2^64 as queue\n",
        ),
    ] {
        let whole = format!(in rt.alloc(); "{names}{text}")?;
        assert_eq!(rt; read(&rt, Form::Csv, 1, whole.as_str())?.as_str(), fault);
    }
    let fault = "f:1: expected a column operation\n";
    assert_eq!(rt; read(&rt, Form::Csv, 1, "queue,number\n")?.as_str(), fault);
    Ok(())
}

const BLKPARSE: &str = "  8,0    3        1     0.000000000   697  G   W 223490 + 8 [kjournald]
  8,0    3        2     0.000001829   697  P   R [kjournald]
  8,0    3        3     0.000002197   697  Q   W 223490 + 8 [kjournald]
  8,0    3        4     0.000138000   697  Q  RA 223498 + 16 [kjournald]
  8,0    3        5     0.000140000   697  Q  DS 0 + 8 [fstrim]
  8,0    3        6     0.000150000   697  Q FWS [jbd2/sda]
  8,0    3        7     1.000002197   697  Q  WS 0 + 1 [jbd2/sda]
  8,0    3        8     1.000003000   697  C  WS 0 + 1 [0]
CPU3 (8,0):
 Reads Queued:           1,        8KiB\t Writes Queued:           2,        5KiB

Events (8,0): 8 entries
";

#[test]
fn blkparse_has_what_is_queued(rt: HostRuntime) -> Result<(), Fail> {
    let requests = "3: 0 Write 223490 8\n4: 135803000 Read 223498 16\n7: 1000000000000 Write 0 1\n";
    assert_eq!(rt; read(&rt, Form::Blkparse, 1, BLKPARSE)?.as_str(), requests);
    for (text, fault) in [
        ("CPU3 (8,0):\n", "f: expected a request to replay\n"),
        (
            "8,0 3 3 0.5 697 Q W 0 + 8 [x]\n",
            "f:1: expected seconds, a point and nine digits as the time\n",
        ),
        (
            "\n8,0 3 3 0.000000000 697 Q W x + 8 [x]\n",
            "f:2: expected a whole number below 2^64 as the sector\n",
        ),
        (
            "8,0 3 3 0.000000000 697 Q W 0 + 65537 [x]\n",
            "f:1: expected 1 to 65536 blocks, 512 bytes each\n",
        ),
    ] {
        assert_eq!(rt; read(&rt, Form::Blkparse, 1, text)?.as_str(), fault);
    }
    Ok(())
}

#[test]
fn fio_has_reads_and_writes(rt: HostRuntime) -> Result<(), Fail> {
    let text = "fio version 3 iolog
0 /dev/sda add
12 /dev/sda open
40 /dev/sda read 4096 4096
140 /dev/sda write 8192 1024
141 /dev/sda sync 0 0
150 /dev/sda close
";
    let requests = "4: 0 Read 8 8\n5: 100000000 Write 16 2\n";
    assert_eq!(rt; read(&rt, Form::Fio, 1, text)?.as_str(), requests);
    for (text, fault) in [
        ("", "f:1: expected fio version 3 iolog\n"),
        (
            "fio version 2 iolog\n/dev/sda add\n",
            "f:1: expected fio version 3 iolog: version 2 has no times\n",
        ),
        (
            "fio version 3 iolog\n5 /dev/sda wait 0 0\n",
            "f:2: expected add, open, close, read, write, sync, datasync or trim as the action\n",
        ),
        (
            "fio version 3 iolog\n5 /dev/sda read 0\n",
            "f:2: expected a whole number below 2^64 as the length\n",
        ),
    ] {
        assert_eq!(rt; read(&rt, Form::Fio, 1, text)?.as_str(), fault);
    }
    Ok(())
}

#[test]
fn forms_have_names(rt: HostRuntime) {
    assert_eq!(rt; Form::named("blkparse"), Some(Form::Blkparse));
    assert_eq!(rt; Form::named("fio"), Some(Form::Fio));
    assert_eq!(rt; Form::named("CSV"), None);
}

#[test]
fn speeds_divide_times(rt: HostRuntime) {
    for (text, at) in [
        ("2", 4),
        ("0.5", 18),
        ("1.25", 7),
        ("1", 9),
        ("1.000", 9),
        ("10", 0),
    ] {
        let speed = Speed::parse(text);
        assert_eq!(rt; speed.and_then(|it| it.scaled(9)), Some(at));
    }
    for text in [
        "",
        "0",
        "0.00",
        ".5",
        "1.",
        "-1",
        "+1",
        "1e3",
        "1.2.3",
        " 2",
        "18446744073709551616",
    ] {
        assert_eq!(rt; Speed::parse(text), None);
    }
    assert_eq!(rt; Speed::whole(0), None);
    assert_eq!(rt; Speed::whole(2), Speed::parse("2"));
    let half = Speed::parse("0.5");
    assert_eq!(rt; half.and_then(|it| it.scaled(u64::MAX)), None);
}

// A read of a block.
fn on(line: u64, at: u64, block: u64) -> Lined {
    let request = Request {
        at,
        operation: Operation::Read,
        block,
        blocks: 1,
    };
    Lined { line, request }
}

#[test]
fn lists_are_those_of_a_queue(rt: HostRuntime) -> Result<(), Fail> {
    let Some(speed) = Speed::whole(2) else {
        return Err(Fail::new("no speed"));
    };
    let served = Served {
        read: true,
        write: false,
        flush: false,
    };
    let wanted = Wanted {
        queue: 3,
        speed,
        size: 100,
        served,
    };
    let lines = [on(2, 10, 99), on(1, 11, 0)];
    let replay = replay_of(rt.alloc(), &lines, &wanted).map_err(|_| Fail::new("a fault"))?;
    assert_eq!(rt; replay.request(0), Some(on(2, 5, 99).request));
    assert_eq!(rt; replay.request(1), Some(on(1, 5, 0).request));
    let outside = replay_of(rt.alloc(), &[on(4, 0, 0), on(7, 0, 100)], &wanted);
    let fault = ReplayError::At(7, LineFault::Outside(100));
    assert!(rt; matches!(outside, Err(error) if error == fault));
    let fallen = replay_of(rt.alloc(), &[on(4, 9, 0), on(7, 7, 0)], &wanted);
    let fault = ReplayError::At(7, LineFault::TooEarly);
    assert!(rt; matches!(fallen, Err(error) if error == fault));
    let unserved = Wanted {
        served: Served {
            read: false,
            ..served
        },
        ..wanted
    };
    let missing = replay_of(rt.alloc(), &lines, &unserved);
    let fault = ReplayError::At(2, LineFault::NoService("read", 3));
    assert!(rt; matches!(missing, Err(error) if error == fault));
    let told = format!(in rt.alloc();
        "{}",
        FileFault {
            file: "f",
            error: fault
        }
    )?;
    let expected = "f:2: read is missing, expected how long it takes, of queue 3 or of the device";
    assert_eq!(rt; told.as_str(), expected);
    let told = format!(in rt.alloc(); "{}", LineFault::TooEarly)?;
    assert_eq!(rt;
        told.as_str(),
        "expected no time before that of the request in front of it"
    );
    Ok(())
}
