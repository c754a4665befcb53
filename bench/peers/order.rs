//! The same order of one node's messages in plain Rust: 256 places, one for each number, and no proof.
use std::hint::black_box;

struct Order {
    width: u8,
    next: u8,
    stamp: u64,
    held: u8,
    places: [Option<u64>; 256],
}

impl Order {
    fn new(width: u8) -> Order {
        Order { width, next: 1, stamp: 1, held: 0, places: [None; 256] }
    }

    fn run(&mut self) -> u64 {
        let mut count = 0;
        while self.held > 0 && self.places[self.next as usize].take().is_some() {
            self.held -= 1;
            self.next = self.next.wrapping_add(1);
            count += 1;
        }
        count
    }

    fn hand(&mut self, number: u8, stamp: u64) -> u64 {
        if stamp < self.stamp {
            return 0;
        }
        let ahead = number.wrapping_sub(self.next);
        if ahead == 0 {
            self.next = self.next.wrapping_add(1);
            return 1 + self.run();
        }
        if ahead < self.width && self.places[number as usize].is_none() {
            self.places[number as usize] = Some(stamp);
            self.held += 1;
        }
        0
    }

    fn birth(&mut self, number: u8, stamp: u64) -> u64 {
        if stamp <= self.stamp {
            return 0;
        }
        for n in 0..=255u8 {
            let past = n.wrapping_sub(number);
            if let Some(own) = self.places[n as usize] {
                if past == 0 || past >= self.width || own < stamp {
                    self.places[n as usize] = None;
                    self.held -= 1;
                }
            }
        }
        self.stamp = stamp;
        self.next = number.wrapping_add(1);
        1 + self.run()
    }
}

pub fn in_line(rounds: u64) -> u64 {
    let mut order = Order::new(64);
    let mut number = 0u8;
    let mut sum = 0;
    for _ in 0..rounds {
        number = number.wrapping_add(1);
        sum += order.hand(black_box(number), 100);
    }
    sum
}

pub fn with_holes(rounds: u64) -> u64 {
    let mut order = Order::new(64);
    let mut number = 0u8;
    let mut sum = 0;
    for _ in 0..rounds {
        sum += order.hand(black_box(number.wrapping_add(2)), 100);
        sum += order.hand(black_box(number.wrapping_add(1)), 100);
        number = number.wrapping_add(2);
    }
    sum
}

pub fn births(rounds: u64) -> u64 {
    let mut order = Order::new(96);
    let mut number = 0u8;
    let mut sum = 0;
    for round in 0..rounds {
        let stamp = round + 2;
        for place in 2..97 {
            sum += order.hand(black_box(number.wrapping_add(place)), stamp);
        }
        sum += order.birth(black_box(number.wrapping_add(1)), stamp);
        number = number.wrapping_add(96);
    }
    sum
}
