//! Boxes and windows in whole metres.

/// The largest coordinate.
pub const LAST_METRE: u32 = 1_048_575;

/// The box of a train, or the cover of several such boxes.
#[derive(Clone, Copy, Debug, PartialEq, Eq)]
pub struct Bbox {
    x0: u32,
    y0: u32,
    x1: u32,
    y1: u32,
}

/// The window of a query or a board.
#[derive(Clone, Copy, Debug, PartialEq, Eq)]
pub struct Window {
    x0: u32,
    y0: u32,
    x1: u32,
    y1: u32,
}

fn sides_are_proper([x0, y0, x1, y1]: [u32; 4]) -> bool {
    x0 <= x1 && y0 <= y1 && x1 <= LAST_METRE && y1 <= LAST_METRE
}

impl Bbox {
    /// The box with these sides, if they are proper.
    pub fn proper(sides: [u32; 4]) -> Option<Bbox> {
        let [x0, y0, x1, y1] = sides;
        sides_are_proper(sides).then_some(Bbox { x0, y0, x1, y1 })
    }

    pub fn sides(self) -> [u32; 4] {
        [self.x0, self.y0, self.x1, self.y1]
    }

    /// Lower, then upper side along x.
    pub fn along_x(self) -> (u32, u32) {
        (self.x0, self.x1)
    }

    /// Lower, then upper side along y.
    pub fn along_y(self) -> (u32, u32) {
        (self.y0, self.y1)
    }

    /// Width times height; wide enough for the whole map, which has 2^40 square metres.
    pub fn area(self) -> u64 {
        u64::from(self.x1 - self.x0) * u64::from(self.y1 - self.y0)
    }

    /// The smallest box over both.
    pub fn joined(self, other: Bbox) -> Bbox {
        Bbox {
            x0: self.x0.min(other.x0),
            y0: self.y0.min(other.y0),
            x1: self.x1.max(other.x1),
            y1: self.y1.max(other.y1),
        }
    }

    /// Whether box and window share a point, edges and corners included.
    pub fn meets(self, window: Window) -> bool {
        self.x0 <= window.x1 && window.x0 <= self.x1 && self.y0 <= window.y1 && window.y0 <= self.y1
    }
}

impl Window {
    /// The window over every point there is.
    pub const WHOLE_MAP: Window = Window {
        x0: 0,
        y0: 0,
        x1: LAST_METRE,
        y1: LAST_METRE,
    };

    /// The window with these sides, if they are proper.
    pub fn proper(sides: [u32; 4]) -> Option<Window> {
        let [x0, y0, x1, y1] = sides;
        sides_are_proper(sides).then_some(Window { x0, y0, x1, y1 })
    }

    pub fn sides(self) -> [u32; 4] {
        [self.x0, self.y0, self.x1, self.y1]
    }
}
