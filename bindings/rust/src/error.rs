//! Why calls are refused. Each call has an enum of its own with what it can answer.

use std::error::Error;
use std::fmt;
use std::time::Duration;

use crate::sys;

/// Makes an enum of refusals. The text of each is its documentation, and what it prints. One behind
/// `+` holds a value, which its call fills in.
macro_rules! refusals {
    (
        $(#[$about:meta])*
        $name:ident {
            $($variant:ident = $status:ident: $text:literal,)*
            $(+ $with:ident($held:ty): $with_text:literal,)?
        }
    ) => {
        $(#[$about])*
        #[derive(Clone, Copy, Debug, PartialEq, Eq)]
        #[non_exhaustive]
        pub enum $name {
            $(#[doc = $text] $variant,)*
            $(#[doc = $with_text] $with($held),)?
            #[doc = "The archive answered a status that isn't one of this call's: it is of another version."]
            Other(i32),
        }

        impl $name {
            /// What a status tells that is below zero, or else isn't one of the call's.
            pub(crate) fn of(status: i32) -> Self {
                match status {
                    $(sys::$status => Self::$variant,)*
                    other => Self::Other(other),
                }
            }
        }

        impl fmt::Display for $name {
            fn fmt(&self, f: &mut fmt::Formatter<'_>) -> fmt::Result {
                match self {
                    $(Self::$variant => f.write_str($text),)*
                    $(Self::$with(held) => write!(f, concat!($with_text, " {:?}"), held),)?
                    Self::Other(status) => write!(f, "the archive answered {status}, which isn't one of this call's"),
                }
            }
        }

        impl Error for $name {}
    };
}

refusals! {
    /// Why no client was made.
    AllocateError {
        LongName = TURN_LONG_NAME: "the user's name has more than 513 bytes",
        BadTransport = TURN_BAD_SETTING: "an allocation over TCP is to be had over TCP alone",
        ZeroSeed = TURN_ZERO_SEED: "all bytes of the seed are zero: it was not filled",
        NoRandom = TURN_NO_RANDOM: "the system gave no random bytes for a seed",
        NoMemory = TURN_NO_MEMORY: "there is no memory for a client",
    }
}

refusals! {
    /// Why the end of the allocations can't be asked for.
    DeleteError {
        NoAllocation = TURN_NO_ALLOCATION: "there is no allocation: it was never made, or is over, or the client has ended",
        NoMemory = TURN_NO_MEMORY: "there is no memory for the request: the call may be made again",
    }
}

refusals! {
    /// Why a permission can't be asked for.
    CreatePermissionError {
        AlreadyExists = TURN_ALREADY_EXISTS: "a permission for the address stands, or was asked for",
        NoAllocation = TURN_NO_ALLOCATION: "no allocation of this transport and family stands, or the client has ended",
        NoMemory = TURN_NO_MEMORY: "there is no memory for the request: the call may be made again",
    }
}

refusals! {
    /// Why permissions for several addresses can't be asked for.
    CreatePermissionsError {
        InvalidAddresses = TURN_BAD_ADDRESSES: "there is no address, or more than 32, or they are of two families",
        AlreadyExists = TURN_ALREADY_EXISTS: "a permission for one of the addresses stands, or was asked for",
        NoAllocation = TURN_NO_ALLOCATION: "no allocation of this transport and family stands, or the client has ended",
        NoMemory = TURN_NO_MEMORY: "there is no memory for the request: the call may be made again",
    }
}

refusals! {
    /// Why a channel can't be asked for.
    BindChannelError {
        AlreadyExists = TURN_ALREADY_EXISTS: "a channel to the peer stands",
        NoAllocation = TURN_NO_ALLOCATION: "no allocation of this transport and family stands, or the client has ended",
        NoChannel = TURN_NO_CHANNEL: "no channel number is free",
        NoMemory = TURN_NO_MEMORY: "there is no memory for the request: the call may be made again",
        + ExpiredChannelExists(Duration): "a channel to the peer ended lately, and bars another up to the moment",
    }
}

refusals! {
    /// Why a connection to a peer can't be asked for.
    TcpConnectError {
        AlreadyExists = TURN_ALREADY_EXISTS: "a connection to the peer was asked for, or stands",
        NoAllocation = TURN_NO_ALLOCATION: "no allocation over TCP of this family stands, or the client has ended",
        NoPermission = TURN_NO_PERMISSION: "no permission for the peer's address stands",
        NoMemory = TURN_NO_MEMORY: "there is no memory for the request: the call may be made again",
    }
}

refusals! {
    /// Why what became of a socket can't be taken.
    TcpAllocateError {
        AlreadyExists = TURN_ALREADY_EXISTS: "another connection has this own address",
        NoAllocation = TURN_NO_ALLOCATION: "no connection of this number and to this peer waits for its socket",
        NoMemory = TURN_NO_MEMORY: "there is no memory for the connection: the call may be made again",
    }
}

refusals! {
    /// Why it can't be taken that a socket was closed.
    TcpClosedError {
        NoMemory = TURN_NO_MEMORY: "there is no memory for it: the call may be made again",
    }
}

refusals! {
    /// Why nothing can be sent to a peer.
    SendError {
        NoPermission = TURN_NO_PERMISSION: "no permission for the peer's address stands",
        NoTcpSocket = TURN_NO_SOCKET: "no connection to the peer is bound",
        TooLarge = TURN_TOO_LARGE: "the data has more than 65504 bytes",
        NoMemory = TURN_NO_MEMORY: "there is no memory for the message, or no number for it is left",
    }
}

refusals! {
    /// Why other credentials aren't set.
    CredentialsError {
        LongName = TURN_LONG_NAME: "the user's name has more than 513 bytes",
        NoMemory = TURN_NO_MEMORY: "there is no memory for the credentials",
    }
}

refusals! {
    /// Why the text of SOFTWARE isn't set.
    SoftwareError {
        TooLarge = TURN_TOO_LARGE: "the text has more than 763 bytes",
        NoMemory = TURN_NO_MEMORY: "there is no memory for the text",
    }
}

refusals! {
    /// Why what came can't be taken.
    RecvError {
        Unread = TURN_UNREAD: "there was no memory for a payload that came before: poll_recv gives it",
        NoMemory = TURN_NO_MEMORY: "there is no memory for what came: the client has failed, and holds nothing",
    }
}

refusals! {
    /// Why what is due can't be done.
    PollError {
        NoMemory = TURN_NO_MEMORY: "there is no memory for what is due: the client has failed, and holds nothing",
    }
}

refusals! {
    /// Why the next message can't be written.
    PollTransmitError {
        NoMemory = TURN_NO_MEMORY: "there is no memory for a message: the client has failed, and holds nothing",
    }
}

#[cfg(test)]
mod tests {
    use super::*;

    /// A status of a newer archive.
    const UNKNOWN: i32 = -99;

    #[test]
    fn a_status_that_a_call_does_not_have_is_told_as_it_is() {
        assert_eq!(DeleteError::of(UNKNOWN), DeleteError::Other(UNKNOWN));
        assert_eq!(
            DeleteError::of(sys::TURN_NO_CHANNEL),
            DeleteError::Other(-12)
        );
        assert!(DeleteError::of(UNKNOWN).to_string().contains("-99"));
    }

    #[test]
    fn a_moment_is_printed_in_seconds() {
        let error = BindChannelError::ExpiredChannelExists(Duration::from_millis(900_100));
        assert!(error.to_string().ends_with(" 900.1s"));
    }
}
