//! The proved tag through its C boundary (include/mainspur.h).

const IMAGE: usize = 684;
const ROOM: usize = 258;
const JOURNAL: usize = 16;

extern "C" {
    fn mainspur_fresh(uid: *const u8, uid_length: usize, image: *mut u8, image_length: usize) -> usize;
    fn mainspur_call(
        image: *mut u8,
        image_length: usize,
        command: *const u8,
        command_length: usize,
        random: *const u8,
        random_length: usize,
        room: *mut u8,
        room_length: usize,
        journal: *mut u8,
        journal_length: usize,
    ) -> usize;
}

/// A tag's state.
#[derive(Clone)]
pub struct Image {
    bytes: [u8; IMAGE],
    room: [u8; ROOM],
    journal: [u8; JOURNAL],
}

impl Image {
    pub fn fresh(uid: &[u8]) -> Option<Image> {
        let mut tag = Image {
            bytes: [0; IMAGE],
            room: [0; ROOM],
            journal: [0; JOURNAL],
        };
        // SAFETY: the slices are whole, live through the call and don't overlap.
        let made = unsafe { mainspur_fresh(uid.as_ptr(), uid.len(), tag.bytes.as_mut_ptr(), IMAGE) };
        (made == 0).then_some(tag)
    }

    /// Plays a command, and gives the length of the reply.
    pub fn play(&mut self, command: &[u8], random: &[u8]) -> usize {
        // SAFETY: the slices are whole, live through the call and don't overlap.
        unsafe {
            mainspur_call(
                self.bytes.as_mut_ptr(),
                IMAGE,
                command.as_ptr(),
                command.len(),
                random.as_ptr(),
                random.len(),
                self.room.as_mut_ptr(),
                ROOM,
                self.journal.as_mut_ptr(),
                JOURNAL,
            )
        }
    }

    /// The reply to a command; empty where the call is refused.
    pub fn call(&mut self, command: &[u8], random: &[u8]) -> Vec<u8> {
        let length = self.play(command, random);
        self.room.get(..length).unwrap_or(&[]).to_vec()
    }
}
