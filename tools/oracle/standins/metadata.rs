//! Stand-in: the fields that nikon.rs names. The oracle never builds one.

use crate::camera_settings::CameraSettings;
use crate::focus::FocusPoints;
use crate::geometry::Size;
use crate::rational::Rational;

pub(crate) struct Metadata {
    pub(crate) raw_size: Option<Size>,
    pub(crate) image_size: Option<Size>,
    pub(crate) camera: Camera,
    pub(crate) exposure: Exposure,
    pub(crate) lens: Lens,
    pub(crate) capture_time: Option<DateTime>,
    pub(crate) camera_settings: CameraSettings,
    pub(crate) focus_points: Option<FocusPoints>,
}

pub(crate) struct Camera {
    pub(crate) serial_number: Option<String>,
    pub(crate) recorded_model: Option<String>,
}

pub(crate) struct Exposure {
    pub(crate) iso: Option<u32>,
}

pub(crate) struct Lens([Option<Rational>; 4]);

impl Lens {
    pub(crate) fn has_range(&self) -> bool {
        self.0.iter().any(Option::is_some)
    }

    pub(crate) fn set_range(&mut self, range: [Option<Rational>; 4]) {
        self.0 = range;
    }
}

#[derive(Clone, Copy)]
pub(crate) struct DateTime(Option<i16>);

impl DateTime {
    pub(crate) fn offset_minutes(self) -> Option<i16> {
        self.0
    }

    pub(crate) fn with_offset_minutes(self, minutes: i16) -> Option<Self> {
        Some(Self(Some(minutes)))
    }
}
