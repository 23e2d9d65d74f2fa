//! A file that is replaced, and who may read the new one.
//!
//! Nobody but the caller can read the new file, at any moment, who could not read the old one. While it is written it
//! is open to its owner at most. Owner and group are kept where the caller may set them, and the permission bits come
//! last. Whoever was in the old group, or was the owner, may fall into another class of the new file, which must not
//! have more bits than his own had:
//!
//! - where the group is not kept, the new group gets none, and others what others and the group both had;
//! - where the owner is not kept, group and others get only what the owner had too;
//! - where an ACL is not kept, or is not known, group and others get none.
//!
//! The bits for set-user-ID, set-group-ID and sticky are not kept.
use crate::system;
use std::ffi::CStr;
use std::fs::{File, Permissions};
use std::io;
use std::os::unix::fs::{fchown, MetadataExt, PermissionsExt};

const ACL: &CStr = c"system.posix_acl_access";
/// What NFS's own ACLs allow only the server knows: they never count as kept.
const NFS_ACL: &CStr = c"system.nfs4_acl";

pub struct Old {
    /// Open to be looked at.
    pub file: File,
    /// Open to be read, and locked; none where the caller cannot read it.
    pub readable: Option<File>,
}

/// What the new file has of the old one.
pub struct Kept {
    owner: bool,
    group: bool,
}

impl Old {
    /// The permission bits of the new file while it is written.
    pub fn private_bits(&self) -> io::Result<u32> {
        Ok(self.file.metadata()?.mode() & 0o600)
    }

    /// Gives the new file to the old one's owner and group, each if the caller may, and to nobody else.
    pub fn give_away(&self, new: &File) -> io::Result<Kept> {
        let old = self.file.metadata()?;
        // it may have come by the folder's default
        system::remove_attribute(new, ACL)?;
        // the group first, which is no longer to be set once the file is another's
        let group = system::is_known_group(old.gid()) && fchown(new, None, Some(old.gid())).is_ok();
        let owner = system::is_known_user(old.uid()) && fchown(new, Some(old.uid()), None).is_ok();
        Ok(Kept { owner, group })
    }

    /// Gives the new file, which is written, its permission bits.
    pub fn share(&self, new: &File, kept: &Kept) -> io::Result<()> {
        let has_acl = self.copy_acl(new, kept);
        let bits = shared_bits(self.file.metadata()?.mode(), kept, has_acl);
        new.set_permissions(Permissions::from_mode(bits))
    }

    /// Whether the new file has the old one's ACL, or both have none.
    fn copy_acl(&self, new: &File, kept: &Kept) -> bool {
        let Some(old) = &self.readable else {
            return false;
        };
        if !matches!(system::attribute(old, NFS_ACL), Ok(None)) {
            return false;
        }
        match system::attribute(old, ACL) {
            Ok(Some(acl)) => {
                kept.owner && kept.group && system::set_attribute(new, ACL, &acl).is_ok()
            }
            Ok(None) => true,
            Err(_) => false,
        }
    }
}

fn shared_bits(old: u32, kept: &Kept, has_acl: bool) -> u32 {
    let (user, mut group, mut others) = (old >> 6 & 7, old >> 3 & 7, old & 7);
    if !kept.group {
        others &= group;
        group = 0;
    }
    if !kept.owner {
        group &= user;
        others &= user;
    }
    if !has_acl {
        group = 0;
        others = 0;
    }
    user << 6 | group << 3 | others
}
