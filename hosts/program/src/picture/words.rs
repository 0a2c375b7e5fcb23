//! What the picture says in words.

use crate::run::Run;

/// The session, and how it went.
pub fn headline(run: &Run) -> String {
    let delivered = count(run.delivered, "message");
    let ended = if run.ended.is_some() { ", session ended" } else { "" };
    // a name is padded with spaces to its length; they say nothing here
    format!("{}: {delivered} delivered, {}{ended}", run.session.trim(), outcome(run))
}

fn outcome(run: &Run) -> String {
    let all = (run.gaps.len() as u64).saturating_add(run.more_gaps);
    let open = run.open_gaps;
    let gaps = count(all, "gap");
    match (all, open) {
        (0, _) => gaps,
        (1, 0) => format!("{gaps}, closed"),
        (_, 0) => format!("{gaps}, all closed"),
        _ if open == all => format!("{gaps} still open"),
        _ => format!("{gaps}, {} still open", grouped(open)),
    }
}

/// The line below the headline.
pub fn details(run: &Run) -> String {
    let waiting = match run.open_gaps > 0 {
        true => format!("; waiting for message {}", grouped(run.next)),
        false => String::new(),
    };
    let ended = if run.ended.is_some() { "" } else { "; no end of session" };
    format!(
        "{}, {}, {}{waiting}{ended}",
        count(run.records, "record"),
        count(run.asked, "request"),
        count(run.refused, "refusal")
    )
}

/// What is said of a lane when it is pointed at.
pub fn lane(name: &str, times: u64) -> String {
    format!("{name}: at {}", count(times, "record"))
}

/// What is said where there are more gaps than boxes.
pub fn not_drawn(gaps: u64) -> String {
    match gaps {
        1 => "1 more gap is not drawn".to_string(),
        _ => format!("{} more gaps are not drawn", grouped(gaps)),
    }
}

fn count(number: u64, thing: &str) -> String {
    match number {
        0 => format!("no {thing}s"),
        1 => format!("1 {thing}"),
        _ => format!("{} {thing}s", grouped(number)),
    }
}

/// A number with a comma before each three digits.
pub fn grouped(number: u64) -> String {
    let digits = number.to_string();
    let mut grouped = String::new();
    for (place, digit) in digits.chars().enumerate() {
        if place > 0 && (digits.len() - place) % 3 == 0 {
            grouped.push(',');
        }
        grouped.push(digit);
    }
    grouped
}

/// Text as XML has it.
pub fn escaped(text: &str) -> String {
    let mut escaped = String::new();
    for letter in text.chars() {
        match letter {
            '&' => escaped += "&amp;",
            '<' => escaped += "&lt;",
            '>' => escaped += "&gt;",
            '"' => escaped += "&quot;",
            _ => escaped.push(letter),
        }
    }
    escaped
}
