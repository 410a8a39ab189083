//! One office, which owns its store.

use crate::bounds::{ANSWER_WORDS, FRAME_WORDS, WRITE_WORDS};
use crate::entry::{Entry, Id};
use crate::ffi;
use crate::frame::Frame;
use crate::loading::NotLoaded;
use crate::refusal::Refusal;
use crate::session::Session;
use crate::settings::{Ring, Settings};

/// One office of a ring. It is no clone of another, since each number of a ring is opened once.
#[derive(Debug)]
pub struct Office {
    settings: Settings,
    store: Vec<u32>,
}

impl Office {
    /// An office that holds nothing.
    ///
    /// ```
    /// # use burial_register::{Office, Refusal, Ring};
    /// let ring = Ring { offices: 9, plots: 64 };
    /// assert_eq!(Office::open(ring, 0).err(), Some(Refusal::BadSettings));
    /// ```
    pub fn open(ring: Ring, own: u32) -> Result<Office, Refusal> {
        let settings = Settings { ring, own };
        let mut store = vec![0; ffi::store_need(settings)?];
        ffi::open_office(settings, &mut store)?;
        Ok(Office { settings, store })
    }

    /// An office as it was kept: the words must be those of this office in this ring, and the
    /// last that it had. From older ones it would make an id again that is already on its way.
    ///
    /// ```
    /// # use burial_register::{NotLoaded, Office, Ring};
    /// # let ring = Ring { offices: 3, plots: 64 };
    /// let kept = Office::open(ring, 1)?.words().to_vec();
    /// assert_eq!(Office::load(ring, 1, kept)?.settings().own, 1);
    /// # Ok::<(), NotLoaded>(())
    /// ```
    pub fn load(ring: Ring, own: u32, words: Vec<u32>) -> Result<Office, NotLoaded> {
        let (kept, wanted) = (Settings::of_store(&words)?, Settings { ring, own });
        if kept != wanted {
            return Err(NotLoaded::Foreign { kept, wanted });
        }
        Ok(Office { settings: kept, store: words })
    }

    /// What it was opened with.
    pub fn settings(&self) -> Settings {
        self.settings
    }

    /// The words to keep. They are kept before the frames of a call are sent and before its reply
    /// is told: what others know must survive a crash.
    pub fn words(&self) -> &[u32] {
        &self.store
    }

    /// Reads one plot: the higher-ranked of the shown entry and the session's own. What the session
    /// has read is shown here from now on.
    pub fn read(&mut self, session: &mut Session, plot: u32) -> Result<Option<Entry>, Refusal> {
        let found = ffi::read_plot(&mut self.store, &mut session.inner, plot)?;
        Ok(found.map(Entry::from))
    }

    /// Reads up to 16 plots at one moment, each as [`read`](Office::read) does.
    ///
    /// ```
    /// # use burial_register::{Office, Refusal, Ring, Session};
    /// # let ring = Ring { offices: 3, plots: 64 };
    /// # let (mut office, mut session) = (Office::open(ring, 0)?, Session::fresh(ring)?);
    /// office.write(&mut session, 5, 709)?;
    /// let found = office.read_joint(&mut session, &[5, 6])?;
    /// assert_eq!(found[0].unwrap().to_string(), "709 by 0.1");
    /// assert_eq!(found[1], None);
    /// # Ok::<(), Refusal>(())
    /// ```
    pub fn read_joint(
        &mut self,
        session: &mut Session,
        plots: &[u32],
    ) -> Result<Vec<Option<Entry>>, Refusal> {
        let mut answer = [0; ANSWER_WORDS];
        ffi::read_joint(&mut self.store, &mut session.inner, plots, &mut answer)?;
        let told = |(&plot, row): (&u32, &[u32])| {
            let entry = Entry { id: Id::from_number(row[2]), plot, value: row[1] };
            (row[0] == 1).then_some(entry)
        };
        Ok(plots.iter().zip(answer.chunks_exact(3)).map(told).collect())
    }

    /// Writes a value to a plot. The frames go to the next office, in this order: the session's
    /// entries that are new here, and last the new one.
    pub fn write(
        &mut self,
        session: &mut Session,
        plot: u32,
        value: u32,
    ) -> Result<Vec<Frame>, Refusal> {
        let mut out = [0; WRITE_WORDS];
        let words = ffi::write(&mut self.store, &mut session.inner, plot, value, &mut out)?;
        let frames = Frame::split(self.settings.ring, &out[..words]);
        Ok(frames.expect("a write puts out frames of its ring"))
    }

    /// Hears a frame from the office before. It hands back the frame to send to the next office,
    /// or none where this was the last to hear it. A refused frame has not been heard.
    pub fn hear(&mut self, frame: &Frame) -> Result<Option<Frame>, Refusal> {
        let mut out = [0; FRAME_WORDS];
        let onward = match ffi::receive(&mut self.store, frame.words(), &mut out)? {
            0 => None,
            words => Some(Frame::from_words(self.settings.ring, &out[..words])),
        };
        Ok(onward.map(|frame| frame.expect("a hearing puts out a frame of its ring")))
    }
}
