//! The two ends of each protocol against each other, through the wrapper: what one sends the other hands up, whatever the line does.

mod either;
mod feed;
mod store;
mod stream;
mod transmitter;
