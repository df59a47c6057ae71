//! What the tests of cuts need of each type of tag, by the library.

use zanfirotta::{type2, type3, type6};

pub use crate::common::kinds::{Kind, Type2, Type3, Type6};

/// What the types have in common for these tests.
pub trait Type: Kind {
    /// The address of the version byte, if tags of several versions are read.
    const VERSION: Option<usize>;
    /// The bytes of our list.
    fn list(&self, image: &[u8], message: &[u8]) -> Vec<u8>;
    fn judge(&self, image: &[u8], message: &[u8], list: &[u8]) -> Option<usize>;
    fn model(&self, image: &mut [u8], command: &[u8]) -> bool;
    fn commands(&self, list: &[u8]) -> Vec<Vec<u8>>;
    /// The message on a tag, empty if there is none; `None` if the tag is refused.
    fn message(&self, image: &[u8]) -> Option<Vec<u8>>;
}

impl Type for Type2 {
    const VERSION: Option<usize> = Some(13);

    fn list(&self, image: &[u8], message: &[u8]) -> Vec<u8> {
        let mut list = vec![0; type2::LIST_MAX];
        let count = type2::write(image, message, &mut list).unwrap();
        list.truncate(type2::COMMAND * count);
        list
    }

    fn judge(&self, image: &[u8], message: &[u8], list: &[u8]) -> Option<usize> {
        type2::judge(image, message, list).ok()
    }

    fn model(&self, image: &mut [u8], command: &[u8]) -> bool {
        type2::model(image, command).is_ok()
    }

    fn commands(&self, list: &[u8]) -> Vec<Vec<u8>> {
        type2::commands(list).map(<[u8]>::to_vec).collect()
    }

    fn message(&self, image: &[u8]) -> Option<Vec<u8>> {
        let mut gathered = [0; type2::IMAGE_MAX];
        let report = type2::read(image, &mut gathered).ok()?;
        Some(report.message(image, &gathered).to_vec())
    }
}

impl Type for Type3 {
    const VERSION: Option<usize> = Some(0);

    fn list(&self, image: &[u8], message: &[u8]) -> Vec<u8> {
        let mut list = vec![0; type3::LIST_MAX];
        let count = type3::write(image, message, &self.idm, &mut list).unwrap();
        let size = type3::commands(&list).take(count).map(<[u8]>::len).sum();
        list.truncate(size);
        list
    }

    fn judge(&self, image: &[u8], message: &[u8], list: &[u8]) -> Option<usize> {
        type3::judge(image, message, &self.idm, list).ok()
    }

    fn model(&self, image: &mut [u8], command: &[u8]) -> bool {
        type3::model(image, &self.idm, command).is_ok()
    }

    fn commands(&self, list: &[u8]) -> Vec<Vec<u8>> {
        type3::commands(list).map(<[u8]>::to_vec).collect()
    }

    fn message(&self, image: &[u8]) -> Option<Vec<u8>> {
        let report = type3::read(image).ok()?;
        Some(report.message(image, &[]).to_vec())
    }
}

impl Type for Type6 {
    const VERSION: Option<usize> = None;

    fn list(&self, image: &[u8], message: &[u8]) -> Vec<u8> {
        let mut list = vec![0; type6::LIST_MAX];
        let count = type6::write(image, message, &mut list).unwrap();
        list.truncate(type6::command_len(self.block_size as u64) * count);
        list
    }

    fn judge(&self, image: &[u8], message: &[u8], list: &[u8]) -> Option<usize> {
        type6::judge(image, message, list).ok()
    }

    fn model(&self, image: &mut [u8], command: &[u8]) -> bool {
        type6::model(image, command).is_ok()
    }

    fn commands(&self, list: &[u8]) -> Vec<Vec<u8>> {
        let commands = type6::commands(list, self.block_size as u64);
        commands.map(<[u8]>::to_vec).collect()
    }

    fn message(&self, image: &[u8]) -> Option<Vec<u8>> {
        let report = type6::read(image).ok()?;
        Some(report.message(image, &[]).to_vec())
    }
}
