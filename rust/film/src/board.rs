//! What the threads of a run share: the rows that are still to be listed, and what came out of those that are done.

use std::collections::VecDeque;
use std::sync::atomic::{AtomicBool, Ordering};
use std::sync::{Condvar, Mutex, MutexGuard, PoisonError};
use std::time::Duration;

use crate::trouble::Trouble;

/// So many rows that are done and not yet fetched wake the one who fetches them.
const MANY: usize = 256;

/// With so many bytes of them, threads wait until they are fetched.
const MOST: usize = 16 << 20;

/// How long a thread waits at most before it looks again.
const LOOK: Duration = Duration::from_millis(50);

pub struct Board<T> {
    state: Mutex<State<T>>,
    /// Wakes threads that wait for rows, or for room.
    rows: Condvar,
    /// Wakes the one who fetches.
    news: Condvar,
    stopped: AtomicBool,
}

struct State<T> {
    /// The first row that was not handed out yet, and the number of all rows.
    next: usize,
    count: usize,
    /// Rows that were handed out and came back without an answer.
    again: VecDeque<usize>,
    /// Rows that are done and not yet fetched.
    done: Vec<(usize, T)>,
    /// The bytes of these.
    bytes: usize,
    /// How many rows are done, fetched or not.
    finished: usize,
    /// Threads at work.
    hands: usize,
    /// No new rows for now: too much that is done waits for a row before it.
    held: bool,
    /// Why a thread could not go on.
    trouble: Option<Trouble>,
}

/// What was fetched.
pub struct News<T> {
    pub done: Vec<(usize, T)>,
    /// Nothing more will come.
    pub last: bool,
}

impl<T> Board<T> {
    /// For so many rows and threads.
    pub fn new(count: usize, hands: usize) -> Board<T> {
        let (again, done) = (VecDeque::new(), Vec::new());
        let state = State { next: 0, count, again, done, bytes: 0, finished: 0, hands, held: false, trouble: None };
        Board { state: Mutex::new(state), rows: Condvar::new(), news: Condvar::new(), stopped: AtomicBool::new(false) }
    }

    /// No thread panics while it holds the lock; if one did, the state would still be whole.
    fn lock(&self) -> MutexGuard<'_, State<T>> {
        self.state.lock().unwrap_or_else(PoisonError::into_inner)
    }

    fn wait<'a>(condition: &Condvar, state: MutexGuard<'a, State<T>>, time: Duration) -> MutexGuard<'a, State<T>> {
        condition.wait_timeout(state, time).unwrap_or_else(PoisonError::into_inner).0
    }

    /// Up to so many rows to list. Where there are none at the moment it waits, or answers none unless `wait`. None also where
    /// all rows are done, or the run was stopped.
    pub fn take(&self, most: usize, wait: bool) -> Vec<usize> {
        let mut state = self.lock();
        loop {
            if self.is_stopped() || state.finished == state.count {
                return Vec::new();
            }
            let rows = state.hand_out(most);
            if !rows.is_empty() || !wait {
                return rows;
            }
            state = Self::wait(&self.rows, state, LOOK);
        }
    }

    /// Hands rows back that another thread may list.
    pub fn give_back(&self, rows: impl IntoIterator<Item = usize>) {
        self.lock().again.extend(rows);
        self.rows.notify_all();
    }

    /// Rows that are done, and how many bytes they take.
    pub fn put(&self, done: Vec<(usize, T)>, bytes: usize) {
        let mut state = self.lock();
        while state.bytes >= MOST && !self.is_stopped() {
            self.news.notify_one();
            state = Self::wait(&self.rows, state, LOOK);
        }
        let before = state.done.len();
        state.finished += done.len();
        state.bytes += bytes;
        state.done.extend(done);
        let all = state.finished == state.count;
        // Once is enough: who fetches does not wait where there are many.
        if all || (before < MANY && state.done.len() >= MANY) {
            self.news.notify_one();
        }
        if all {
            self.rows.notify_all();
        }
    }

    /// A thread ends, where it had to with the reason.
    pub fn leave(&self, trouble: Option<Trouble>) {
        let mut state = self.lock();
        state.hands -= 1;
        state.trouble = state.trouble.take().or(trouble);
        self.news.notify_one();
        self.rows.notify_all();
    }

    /// What is done since the last time; waits for it, but not longer than this.
    pub fn fetch(&self, time: Duration) -> News<T> {
        let mut state = self.lock();
        if state.done.len() < MANY && !state.is_over() {
            state = Self::wait(&self.news, state, time);
        }
        let done = std::mem::take(&mut state.done);
        if std::mem::take(&mut state.bytes) >= MOST {
            self.rows.notify_all();
        }
        News { done, last: state.is_over() }
    }

    /// Whether new rows are held back.
    pub fn hold(&self, held: bool) {
        let mut state = self.lock();
        if state.held != held {
            state.held = held;
            self.rows.notify_all();
        }
    }

    /// No more rows are handed out.
    pub fn stop(&self) {
        self.stopped.store(true, Ordering::Relaxed);
        self.rows.notify_all();
    }

    pub fn is_stopped(&self) -> bool {
        self.stopped.load(Ordering::Relaxed)
    }

    /// Why a thread could not go on, if one could not.
    pub fn trouble(&self) -> Option<Trouble> {
        self.lock().trouble.take()
    }
}

impl<T> State<T> {
    fn hand_out(&mut self, most: usize) -> Vec<usize> {
        let again = most.min(self.again.len());
        if again > 0 {
            return self.again.drain(..again).collect();
        }
        let end = if self.held { self.next } else { self.count.min(self.next + most) };
        let rows = (self.next..end).collect();
        self.next = end;
        rows
    }

    /// All rows are done, or nobody is left to list them.
    fn is_over(&self) -> bool {
        self.finished == self.count || self.hands == 0
    }
}

#[cfg(test)]
mod tests {
    use super::*;

    const SOON: Duration = Duration::from_millis(1);

    #[test]
    fn every_row_is_handed_out_and_what_comes_back_comes_first() {
        let board: Board<&str> = Board::new(5, 1);
        assert_eq!(board.take(2, true), [0, 1]);
        board.give_back([1]);
        assert_eq!(board.take(4, true), [1]);
        board.hold(true);
        assert_eq!(board.take(4, false), []);
        board.give_back([0]);
        assert_eq!(board.take(4, true), [0]);
        board.hold(false);
        assert_eq!(board.take(4, true), [2, 3, 4]);
        board.put((0..5).map(|row| (row, "done")).collect(), 0);
        assert_eq!(board.take(4, true), []);
        let news = board.fetch(SOON);
        assert_eq!((news.done.len(), news.last), (5, true));
    }

    /// Who puts too much waits until it is fetched.
    #[test]
    fn what_is_not_fetched_is_bounded() {
        let board: Board<()> = Board::new(9, 1);
        std::thread::scope(|scope| {
            let putting = scope.spawn(|| (0..9).for_each(|row| board.put(vec![(row, ())], MOST)));
            for row in 0..9 {
                let mut done = Vec::new();
                while done.is_empty() {
                    done = board.fetch(SOON).done;
                }
                assert_eq!(done, [(row, ())]);
            }
            putting.join().unwrap();
        });
    }

    #[test]
    fn a_run_is_over_when_the_last_hand_leaves() {
        let board: Board<()> = Board::new(5, 2);
        board.leave(Some(Trouble::new("first")));
        assert!(!board.fetch(SOON).last);
        board.put(vec![(0, ())], 0);
        board.leave(Some(Trouble::new("second")));
        let news = board.fetch(SOON);
        assert_eq!((news.done.len(), news.last), (1, true));
        assert_eq!(board.trouble().map(|trouble| trouble.to_string()), Some(String::from("first")));
        board.stop();
        assert_eq!(board.take(1, true), []);
    }
}
