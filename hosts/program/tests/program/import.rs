//! pcaps of every kind give the captures that they should.

use crate::support::feed::{self, capture, data, data_of, end, heartbeat, request, with_settings};
use crate::support::frames::{
    arp, cooked, cooked2, cooked_tagged, ethernet, fragments, ipv6, long_packet, loopback,
    of_protocol, packet, tagged, udp, GROUP, GROUP6, PORT,
};
use crate::support::pcap::{self, Order, Pcap, PcapNg};
use crate::support::{run, run_with, Folder, Ran, NAME};
use std::fs;
use std::net::IpAddr;

const OPTIONS: [&str; 2] = ["--session", NAME];

/// Imports one file by standard input, to standard output.
fn import(pcap: &[u8], options: &[&str]) -> Ran {
    run_with(pcap, &[&["import", "-"], options].concat())
}

fn assert_gives(pcap: &[u8], options: &[&str], wanted: &[u8], kind: &str) {
    let ran = import(pcap, options);
    assert_eq!((ran.status, ran.out == wanted), (0, true), "{kind}: {}", ran.err);
}

/// A way to put packets to an address into frames.
type Wrap = fn(IpAddr, &[u8]) -> Vec<u8>;

#[test]
fn every_kind_of_frame() {
    let raw: Wrap = |_, packet| packet.to_vec();
    let vlan: Wrap = |to, packet| tagged(to, &[0x8100], packet);
    let stacked: Wrap = |to, packet| tagged(to, &[0x88A8, 0x8100], packet);
    let old_tag: Wrap = |to, packet| tagged(to, &[0x9100], packet);
    let kinds: [(&str, u32, Wrap, &[IpAddr]); 12] = [
        ("an older VLAN", pcap::ETHERNET, old_tag, &[GROUP, GROUP6]),
        ("cooked with a VLAN tag", pcap::COOKED, cooked_tagged, &[GROUP, GROUP6]),
        ("the other loopback", pcap::LOOP, loopback, &[GROUP, GROUP6]),
        ("Ethernet", pcap::ETHERNET, ethernet, &[GROUP, GROUP6]),
        ("VLAN", pcap::ETHERNET, vlan, &[GROUP, GROUP6]),
        ("VLAN in VLAN", pcap::ETHERNET, stacked, &[GROUP, GROUP6]),
        ("cooked", pcap::COOKED, cooked, &[GROUP, GROUP6]),
        ("cooked 2", pcap::COOKED2, cooked2, &[GROUP, GROUP6]),
        ("loopback", pcap::LOOPBACK, loopback, &[GROUP, GROUP6]),
        ("raw", pcap::RAW, raw, &[GROUP, GROUP6]),
        ("raw IPv4", pcap::IPV4, raw, &[GROUP]),
        ("raw IPv6", pcap::IPV6, raw, &[GROUP6]),
    ];
    let datagrams = feed::run();
    let wanted = capture(&datagrams);
    for (name, kind, wrap, groups) in kinds {
        for group in groups {
            let plain = datagrams.iter().map(|d| wrap(*group, &packet(*group, PORT, d)));
            assert_gives(&Pcap::new(kind).frames(plain).bytes(), &OPTIONS, &wanted, name);
            let long = datagrams.iter().map(|d| wrap(*group, &long_packet(*group, PORT, d)));
            assert_gives(&Pcap::new(kind).frames(long).bytes(), &OPTIONS, &wanted, name);
        }
    }
}

#[test]
fn every_header_before_udp_s() {
    let IpAddr::V6(to) = GROUP6 else { unreachable!() };
    let datagrams = feed::run();
    // the kind of each, and its bytes from the second on; the first says that UDP follows
    let sixteen = [1; 15];
    let kinds = [0, 43, 60, 135, 139, 140].map(|kind| (kind, &sixteen[..]));
    for (kind, rest) in kinds.into_iter().chain([(51, &[2; 15][..]), (44, &[0; 7])]) {
        let header = [&[17], rest].concat();
        let frames =
            datagrams.iter().map(|d| ethernet(GROUP6, &ipv6(to, kind, &header, &udp(PORT, d))));
        let pcap = Pcap::new(pcap::ETHERNET).frames(frames).bytes();
        assert_gives(&pcap, &OPTIONS, &capture(&datagrams), &format!("header {kind}"));
    }
}

fn frames(datagrams: &[Vec<u8>]) -> Vec<Vec<u8>> {
    datagrams.iter().map(|d| ethernet(GROUP, &packet(GROUP, PORT, d))).collect()
}

#[test]
fn either_byte_order_and_either_clock() {
    let datagrams = feed::run();
    for order in [Order::Little, Order::Big] {
        for magic in [pcap::MICROSECONDS, pcap::NANOSECONDS] {
            let pcap = Pcap::with(pcap::ETHERNET, order, magic).frames(frames(&datagrams));
            assert_gives(&pcap.bytes(), &OPTIONS, &capture(&datagrams), "order");
        }
    }
}

#[test]
fn pcapng_with_several_interfaces() {
    let datagrams = feed::run();
    for order in [Order::Little, Order::Big] {
        let mut pcap = PcapNg::new(order).interface(pcap::ETHERNET).interface(pcap::ETHERNET);
        for (place, frame) in frames(&datagrams).iter().enumerate() {
            pcap = pcap.frame(place as u32 % 2, frame);
        }
        assert_gives(&pcap.bytes(), &OPTIONS, &capture(&datagrams), "pcapng");
    }
    // libpcap reads interfaces of one kind only, and says so
    let mixed = PcapNg::new(Order::Little).interface(pcap::ETHERNET).interface(pcap::RAW);
    let ran = import(&mixed.frame(0, &frames(&datagrams)[0]).bytes(), &OPTIONS);
    assert_eq!(ran.status, 2);
    assert!(ran.err.contains("frame 1 can't be read: "), "{}", ran.err);
}

#[test]
fn several_files_in_order() {
    let folder = Folder::new();
    let datagrams = feed::run();
    let (one, two) = datagrams.split_at(4);
    let one = folder.write("1.pcap", &Pcap::new(pcap::ETHERNET).frames(frames(one)).bytes());
    let raw = two.iter().map(|d| packet(GROUP6, PORT, d));
    let two = folder.write("2.pcap", &Pcap::new(pcap::RAW).frames(raw).bytes());
    let out = folder.path("out");
    let arguments =
        ["import", one.to_str().unwrap(), two.to_str().unwrap(), "--session", NAME, "-o"];
    let ran = run(&[&arguments[..], &[out.to_str().unwrap()]].concat());
    assert_eq!(ran.status, 0, "{}", ran.err);
    assert_eq!(fs::read(out).unwrap(), capture(&datagrams));
    assert_eq!(folder.names(), ["1.pcap", "2.pcap", "out"]);
    let said = format!("{}, {}: 10 records of 10 frames\n", one.display(), two.display());
    assert_eq!(ran.err, format!("eiderwagon: {said}"));
}

#[test]
fn settings_are_those_asked_for() {
    let datagrams = [data(50, 52)];
    let pcap = Pcap::new(pcap::ETHERNET).frames(frames(&datagrams)).bytes();
    let options = ["--session", NAME, "--next", "50", "--limit", "7"];
    let settings = "session=READROOM01\nnext=50\nlimit=7\n";
    assert_gives(&pcap, &options, &with_settings(settings, &datagrams), "settings");
    // without --next it begins at 1, and says where the file does
    let ran = import(&pcap, &OPTIONS);
    assert_eq!(ran.out, capture(&datagrams));
    let hint = "standard input: begins at number 50: --next 50 begins there, not at 1\n";
    assert!(ran.err.ends_with(hint), "{}", ran.err);
    // a short name gets spaces behind it
    let short = data_of(b"SHORT     ", 1, 2);
    let pcap = Pcap::new(pcap::ETHERNET).frames(frames(std::slice::from_ref(&short))).bytes();
    let settings = "session=SHORT     \nnext=1\nlimit=100\n";
    assert_gives(&pcap, &["--session", "SHORT"], &with_settings(settings, &[short]), "short name");
}

/// Two feeds, a request that goes the other way, and what is no datagram at all.
fn mixed() -> Pcap {
    let other = data_of(b"OTHERROOM1", 7, 9);
    let to_store: IpAddr = "10.0.0.9".parse().unwrap();
    Pcap::new(pcap::ETHERNET)
        .frame(&ethernet(GROUP, &packet(GROUP, PORT, &data(1, 2))))
        .frame(&arp())
        .frame(&ethernet(GROUP, &packet(GROUP, PORT, &other)))
        .frame(&ethernet(to_store, &packet(to_store, 18000, &request(3, 2))))
        .frame(&ethernet(GROUP, &packet(GROUP, PORT, b"nonsense")))
        .frame(&ethernet(to_store, &packet(to_store, 53, b"somebody asks for a name")))
        .frame(&ethernet(GROUP6, &packet(GROUP6, PORT, &heartbeat(3))))
        .frame(&ethernet(GROUP, &packet(GROUP, 99, &end(3))))
        .frame(&ethernet(GROUP, &of_protocol(GROUP, 6)))
        .frame(&ethernet(GROUP6, &of_protocol(GROUP6, 58)))
        .cut(&ethernet(GROUP6, &of_protocol(GROUP6, 6)), 54)
}

#[test]
fn a_name_alone_takes_what_has_it() {
    let ran = import(&mixed().bytes(), &OPTIONS);
    assert_eq!((ran.status, ran.out), (0, capture(&[data(1, 2), heartbeat(3), end(3)])));
    assert_eq!(
        ran.err,
        "eiderwagon: standard input: 3 records of 11 frames\n\
         eiderwagon: standard input: left out: 1 request (frame 4 of standard input)\n"
    );
}

#[test]
fn a_port_or_a_group_takes_what_a_socket_gets() {
    let pcap = mixed().bytes();
    let other = data_of(b"OTHERROOM1", 7, 9);
    let nonsense = b"nonsense".to_vec();
    let by_port = [data(1, 2), other.clone(), nonsense.clone(), heartbeat(3)];
    let port = ["--session", NAME, "--port", "26477"];
    assert_gives(&pcap, &port, &capture(&by_port), "port");
    let by_group = [data(1, 2), other.clone(), nonsense.clone(), end(3)];
    let group = ["--session", NAME, "--group", "233.54.12.101"];
    assert_gives(&pcap, &group, &capture(&by_group), "group");
    let both = [&port[..], &["--group", "ff02::65"]].concat();
    assert_gives(&pcap, &both, &capture(&[heartbeat(3)]), "port and group");
}

#[test]
fn fragments_cut_frames_and_wrong_lengths_are_counted() {
    let long = data(3, 20);
    let whole = ethernet(GROUP, &packet(GROUP, PORT, &data(1, 2)));
    // a UDP datagram that is longer than its packet, into the padding, and a header of 16 bytes
    let mut wrong = ethernet(GROUP, &packet(GROUP, PORT, b"short"));
    wrong[39] += 1;
    let mut no_header = whole.clone();
    no_header[14] = 0x44;
    // behind so short a header the source's port would be a length that fits
    no_header[34..36].copy_from_slice(&[0, 16]);
    for group in [GROUP, GROUP6] {
        let [one, two] = fragments(group, PORT, &long);
        let pcap = Pcap::new(pcap::ETHERNET)
            .frame(&whole)
            .frame(&ethernet(group, &one))
            .frame(&ethernet(group, &two))
            .cut(&ethernet(group, &packet(group, PORT, &long)), 96)
            .cut(&ethernet(group, &packet(group, PORT, &long)), 20)
            .frame(&wrong)
            .frame(&no_header);
        let ran = import(&pcap.bytes(), &OPTIONS);
        assert_eq!((ran.status, ran.out), (0, capture(&[data(1, 2)])));
        assert_eq!(
            ran.err,
            "eiderwagon: standard input: 1 record of 7 frames\n\
             eiderwagon: standard input: left out: \
             2 IP fragments (the first is frame 2 of standard input), \
             2 frames cut by the snap length (the first is frame 4 of standard input), \
             2 frames whose lengths are wrong (the first is frame 6 of standard input)\n"
        );
    }
}

#[test]
fn fragments_of_another_protocol_or_port_are_not_counted() {
    let IpAddr::V6(to) = GROUP6 else { unreachable!() };
    let [first, _] = fragments(GROUP, 99, &data(3, 20));
    // later fragments: of TCP, and one whose next header may be followed by UDP's
    let later = |next: u8| ipv6(to, 44, &[next, 0, 0, 16, 0, 0, 0, 9], &[0; 8]);
    let pcap = Pcap::new(pcap::ETHERNET)
        .frame(&ethernet(GROUP, &packet(GROUP, PORT, &data(1, 2))))
        .frame(&ethernet(GROUP, &first))
        .cut(&ethernet(GROUP, &packet(GROUP, 99, &data(3, 20))), 60)
        .frame(&ethernet(GROUP6, &later(6)))
        .frame(&ethernet(GROUP6, &later(60)))
        .frame(&ethernet(
            GROUP6,
            &ipv6(to, 44, &[44, 0, 0, 16, 0, 0, 0, 9, 17, 0, 0, 0, 0, 0, 0, 9], &[0; 8]),
        ));
    let ran = import(&pcap.bytes(), &["--session", NAME, "--port", "26477"]);
    assert_eq!(
        ran.err,
        "eiderwagon: standard input: 1 record of 6 frames\n\
         eiderwagon: standard input: left out: \
         2 IP fragments (the first is frame 5 of standard input)\n"
    );
}

#[test]
fn a_loopback_has_other_protocols() {
    let pcap = Pcap::new(pcap::LOOPBACK)
        .frame(&loopback(GROUP, &packet(GROUP, PORT, &data(1, 2))))
        .frame(&[7, 0, 0, 0, 1, 2, 3]);
    assert_eq!(
        import(&pcap.bytes(), &OPTIONS).err,
        "eiderwagon: standard input: 1 record of 2 frames\n"
    );
}

#[test]
fn the_hint_is_of_the_session_and_not_given_twice() {
    let datagrams = [data_of(b"OTHERROOM1", 70, 70), data(50, 52)];
    let pcap = Pcap::new(pcap::ETHERNET).frames(frames(&datagrams)).bytes();
    let port = ["--session", NAME, "--port", "26477"];
    assert!(import(&pcap, &port).err.contains("begins at number 50"));
    let ran = import(&pcap, &[&port[..], &["--next", "10"]].concat());
    assert_eq!(ran.err, "eiderwagon: standard input: 2 records of 2 frames\n");
}

#[test]
fn a_damaged_file_does_not_hide_the_next_one() {
    let folder = Folder::new();
    let datagrams = feed::run();
    let whole = Pcap::new(pcap::ETHERNET).frames(frames(&datagrams)).bytes();
    let one = folder.write("1.pcap", &whole[..whole.len() - 1]);
    let two = folder.write("2.pcap", &whole);
    let ran = run(&["import", one.to_str().unwrap(), two.to_str().unwrap(), "--session", NAME]);
    assert_eq!(ran.out, capture(&[&datagrams[..9], &datagrams].concat()));
    assert_eq!(ran.status, 2);
    let sentence = "frame 10 can't be read: truncated dump file";
    assert!(ran.err.contains(&format!("{}: {sentence}", one.display())), "{}", ran.err);
}

#[test]
fn a_frame_cut_behind_its_datagram_is_whole() {
    let frame = ethernet(GROUP, &packet(GROUP, PORT, &heartbeat(1)));
    let mut padded = frame.clone();
    padded.resize(100, 0);
    let pcap = Pcap::new(pcap::ETHERNET).cut(&padded, 64);
    assert_gives(&pcap.bytes(), &OPTIONS, &capture(&[heartbeat(1)]), "cut padding");
}

#[test]
fn sessions_are_listed() {
    let ran = import(&mixed().bytes(), &[]);
    assert_eq!(ran.status, 0, "{}", ran.err);
    let lines: Vec<Vec<String>> = ran
        .text()
        .lines()
        .map(|line| line.split_whitespace().map(str::to_string).collect())
        .collect();
    assert_eq!(
        lines,
        [
            ["session", "first", "last", "datagrams", "to"],
            ["OTHERROOM1", "7", "9", "1", "233.54.12.101:26477"],
            ["READROOM01", "1", "2", "3", "233.54.12.101:26477"],
        ]
    );
}

#[test]
fn numbers_are_the_lowest_and_the_highest() {
    let datagrams = [data(5, 9), data(1, 2), data(7, 7)];
    let pcap = Pcap::new(pcap::ETHERNET).frames(frames(&datagrams)).bytes();
    let listed = import(&pcap, &[]).text();
    let last: Vec<&str> = listed.lines().last().unwrap().split_whitespace().collect();
    assert_eq!(last[..4], ["READROOM01", "1", "9", "3"]);
    // a name is listed as it can be given again
    let odd = data_of(b"A'B\"C\\ROOM", 1, 1);
    let pcap = Pcap::new(pcap::ETHERNET).frames(frames(std::slice::from_ref(&odd))).bytes();
    assert!(import(&pcap, &[]).text().contains("\nA'B\"C\\ROOM "));
    assert_eq!(import(&pcap, &["--session", "A'B\"C\\ROOM"]).status, 0);
}

#[test]
fn every_kind_of_file_is_told_from_a_capture() {
    let frames = frames(&feed::run());
    let ng = frames
        .iter()
        .fold(PcapNg::new(Order::Big).interface(pcap::ETHERNET), |ng, frame| ng.frame(0, frame));
    let mut files = vec![ng.bytes()];
    for order in [Order::Little, Order::Big] {
        for magic in [pcap::MICROSECONDS, pcap::NANOSECONDS] {
            files.push(Pcap::with(pcap::ETHERNET, order, magic).frames(&frames).bytes());
        }
    }
    let wanted = run_with(&capture(&feed::run()), &["report", "-"]).out;
    for bytes in files {
        assert_eq!(run_with(&bytes, &["report", "-", "--session", NAME]).out, wanted);
    }
}

#[test]
fn a_report_takes_a_pcap_as_it_is() {
    let folder = Folder::new();
    for seed in 0..20 {
        let datagrams = feed::drawn(seed, 60);
        let pcap = Pcap::new(pcap::ETHERNET).frames(frames(&datagrams)).bytes();
        let file = folder.write("a.pcap", &pcap);
        let made = folder.write("a.capture", &capture(&datagrams));
        let port = ["--session", NAME, "--port", "26477"];
        for command in ["report", "missing"] {
            let of_pcap = run(&[&[command, file.to_str().unwrap()], &port[..]].concat());
            let of_pipe = run_with(&pcap, &[&[command, "-"], &port[..]].concat());
            let of_capture = run(&[command, made.to_str().unwrap()]);
            assert_eq!(of_pcap.out, of_capture.out, "seed {seed}");
            assert_eq!(of_pipe.out, of_capture.out, "seed {seed}");
            assert_eq!(of_pcap.status, of_capture.status, "seed {seed}: {}", of_pcap.err);
        }
    }
}
