//! Windows of local time.

use crate::status::Status;
use crate::time;

/// Two local second counts from 1970-01-01T00:00:00; the first is in the window, the second is not.
#[derive(Clone, Copy, Debug, PartialEq, Eq, Hash)]
pub struct Window {
    start: i64,
    end: i64,
}

impl Window {
    /// All that can occur: the years 1601 to 9998.
    pub const WIDEST: Window = Window { start: -11_644_473_600, end: 253_370_764_800 };

    /// A window that the library takes.
    pub fn new(start: i64, end: i64) -> Result<Window, Status> {
        if Window::WIDEST.start <= start && start <= end && end <= Window::WIDEST.end {
            Ok(Window { start, end })
        } else {
            Err(Status::Window)
        }
    }

    /// A whole year.
    pub fn year(year: i64) -> Result<Window, Status> {
        if !(1601..=9998).contains(&year) {
            return Err(Status::Window);
        }
        Window::new(time::seconds(year, 1, 1), time::seconds(year + 1, 1, 1))
    }

    /// The first second in the window.
    pub fn start(self) -> i64 {
        self.start
    }

    /// The first second after the window.
    pub fn end(self) -> i64 {
        self.end
    }
}

#[cfg(test)]
mod tests {
    use super::*;

    #[test]
    fn windows() {
        assert_eq!(Window::year(2024), Window::new(1_704_067_200, 1_735_689_600));
        assert_eq!(Window::year(9998).map(Window::end), Ok(Window::WIDEST.end()));
        assert_eq!(Window::year(1600), Err(Status::Window));
        assert_eq!(Window::year(9999), Err(Status::Window));
        assert_eq!(Window::new(1, 0), Err(Status::Window));
        assert_eq!(Window::new(0, Window::WIDEST.end() + 1), Err(Status::Window));
    }
}
