//! A stand-in: `send`, `sendmsg` and `recvmsg` of the C library, with file descriptors passed for real. Linux on 64 bits.

#[macro_export]
macro_rules! cmsg_space {
    (ScmRights($count:expr)) => {
        $crate::net::scm_rights_space($count)
    };
}

pub mod io {
    #[derive(Clone, Copy, Debug, PartialEq, Eq)]
    pub struct Errno(pub i32);

    impl Errno {
        pub const INTR: Errno = Errno(4);
        pub const TOOBIG: Errno = Errno(7);
        pub const PIPE: Errno = Errno(32);

        pub(crate) fn last() -> Errno {
            Errno(std::io::Error::last_os_error().raw_os_error().unwrap_or(0))
        }
    }

    impl From<Errno> for std::io::Error {
        fn from(e: Errno) -> Self {
            std::io::Error::from_raw_os_error(e.0)
        }
    }

    pub fn retry_on_intr<T>(mut f: impl FnMut() -> Result<T, Errno>) -> Result<T, Errno> {
        loop {
            match f() {
                Err(Errno::INTR) => {}
                other => return other,
            }
        }
    }
}

pub mod net {
    use crate::io::Errno;
    use std::ffi::{c_int, c_void};
    use std::io::{IoSlice, IoSliceMut};
    use std::mem::MaybeUninit;
    use std::ops::BitOr;
    use std::os::fd::{AsFd, AsRawFd, BorrowedFd, FromRawFd, OwnedFd};

    /// `struct msghdr`
    #[repr(C)]
    struct Header {
        name: *mut c_void,
        name_len: u32,
        iov: *mut c_void,
        iov_len: usize,
        control: *mut c_void,
        control_len: usize,
        flags: c_int,
    }

    /// The part before the descriptors in `struct cmsghdr`: its length as a word, its level and type as half words.
    const CMSG_HEADER: usize = 16;
    const SOL_SOCKET: u32 = 1;
    const SCM_RIGHTS: u32 = 1;

    extern "C" {
        #[link_name = "send"]
        fn c_send(fd: c_int, bytes: *const c_void, len: usize, flags: c_int) -> isize;
        #[link_name = "sendmsg"]
        fn c_sendmsg(fd: c_int, header: *const Header, flags: c_int) -> isize;
        #[link_name = "recvmsg"]
        fn c_recvmsg(fd: c_int, header: *mut Header, flags: c_int) -> isize;
    }

    fn counted(n: isize) -> Result<usize, Errno> {
        usize::try_from(n).map_err(|_| Errno::last())
    }

    pub const fn scm_rights_space(count: usize) -> usize {
        CMSG_HEADER + (count * 4 + 7) / 8 * 8
    }

    #[derive(Clone, Copy)]
    pub struct SendFlags(c_int);

    impl SendFlags {
        pub const DONTWAIT: SendFlags = SendFlags(0x40);
        pub const NOSIGNAL: SendFlags = SendFlags(0x4000);
    }

    impl BitOr for SendFlags {
        type Output = SendFlags;
        fn bitor(self, other: SendFlags) -> SendFlags {
            SendFlags(self.0 | other.0)
        }
    }

    #[derive(Clone, Copy)]
    pub struct RecvFlags(c_int);

    impl RecvFlags {
        pub const DONTWAIT: RecvFlags = RecvFlags(0x40);
        pub const CMSG_CLOEXEC: RecvFlags = RecvFlags(0x4000_0000);
    }

    impl BitOr for RecvFlags {
        type Output = RecvFlags;
        fn bitor(self, other: RecvFlags) -> RecvFlags {
            RecvFlags(self.0 | other.0)
        }
    }

    pub enum SendAncillaryMessage<'a> {
        ScmRights(&'a [BorrowedFd<'a>]),
    }

    /// The control part of what is sent: nothing, or the descriptors, in words so that it is aligned.
    pub struct SendAncillaryBuffer {
        words: Vec<u64>,
        len: usize,
    }

    impl SendAncillaryBuffer {
        /// The space given serves for its length alone.
        pub fn new(_space: &mut [MaybeUninit<u8>]) -> Self {
            Self { words: Vec::new(), len: 0 }
        }

        pub fn push(&mut self, message: SendAncillaryMessage<'_>) -> bool {
            let SendAncillaryMessage::ScmRights(fds) = message;
            let used = CMSG_HEADER + fds.len() * 4;
            self.len = scm_rights_space(fds.len());
            self.words = vec![0; self.len / 8];
            self.words[0] = used as u64;
            self.words[1] = u64::from(SOL_SOCKET) | u64::from(SCM_RIGHTS) << 32;
            for (i, fd) in fds.iter().enumerate() {
                self.words[2 + i / 2] |= u64::from(fd.as_raw_fd() as u32) << (32 * (i % 2));
            }
            true
        }
    }

    pub enum RecvAncillaryMessage {
        ScmRights(std::vec::IntoIter<OwnedFd>),
        Other,
    }

    pub struct RecvAncillaryBuffer {
        words: Vec<u64>,
        len: usize,
    }

    impl RecvAncillaryBuffer {
        pub fn new(space: &mut [MaybeUninit<u8>]) -> Self {
            Self { words: vec![0; space.len() / 8], len: 0 }
        }

        /// The descriptors received, each owned by the caller from now on.
        pub fn drain(&mut self) -> impl Iterator<Item = RecvAncillaryMessage> {
            let mut found = Vec::new();
            let mut at = 0;
            while at * 8 + CMSG_HEADER <= self.len {
                let used = self.words[at] as usize;
                if self.words[at + 1] == u64::from(SOL_SOCKET) | u64::from(SCM_RIGHTS) << 32 {
                    let fds = (0..(used - CMSG_HEADER) / 4)
                        .map(|i| {
                            let fd = (self.words[at + 2 + i / 2] >> (32 * (i % 2))) as u32 as c_int;
                            unsafe { OwnedFd::from_raw_fd(fd) }
                        })
                        .collect::<Vec<_>>();
                    found.push(RecvAncillaryMessage::ScmRights(fds.into_iter()));
                } else {
                    found.push(RecvAncillaryMessage::Other);
                }
                at += (used + 7) / 8;
            }
            self.len = 0;
            found.into_iter()
        }
    }

    pub struct RecvMsg {
        pub bytes: usize,
    }

    pub fn send(fd: impl AsFd, bytes: &[u8], flags: SendFlags) -> Result<usize, Errno> {
        let fd = fd.as_fd().as_raw_fd();
        counted(unsafe { c_send(fd, bytes.as_ptr().cast(), bytes.len(), flags.0) })
    }

    pub fn sendmsg(
        fd: impl AsFd,
        iov: &[IoSlice<'_>],
        control: &mut SendAncillaryBuffer,
        flags: SendFlags,
    ) -> Result<usize, Errno> {
        let header = Header {
            name: std::ptr::null_mut(),
            name_len: 0,
            iov: iov.as_ptr().cast_mut().cast(),
            iov_len: iov.len(),
            control: control.words.as_mut_ptr().cast(),
            control_len: control.len,
            flags: 0,
        };
        counted(unsafe { c_sendmsg(fd.as_fd().as_raw_fd(), &header, flags.0) })
    }

    pub fn recvmsg(
        fd: impl AsFd,
        iov: &mut [IoSliceMut<'_>],
        control: &mut RecvAncillaryBuffer,
        flags: RecvFlags,
    ) -> Result<RecvMsg, Errno> {
        let mut header = Header {
            name: std::ptr::null_mut(),
            name_len: 0,
            iov: iov.as_mut_ptr().cast(),
            iov_len: iov.len(),
            control: control.words.as_mut_ptr().cast(),
            control_len: control.words.len() * 8,
            flags: 0,
        };
        let bytes = counted(unsafe { c_recvmsg(fd.as_fd().as_raw_fd(), &mut header, flags.0) })?;
        control.len = header.control_len;
        Ok(RecvMsg { bytes })
    }
}
