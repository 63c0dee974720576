//! Not statime's: written for these comparisons, for the stand-ins of the seven messages.
//! The two shapes of a body in document 01's table, once for all seven messages: a
//! timestamp alone, with room behind it that is written as zero, or a timestamp and an
//! identity.

macro_rules! body {
    ($name:ident, $size:literal, $time:ident $(, $identity:ident)?) => {
        #[derive(Debug, Clone, Copy, PartialEq, Eq)]
        pub(crate) struct $name {
            pub(crate) $time: crate::datastructures::common::WireTimestamp,
            $(pub(crate) $identity: crate::datastructures::common::PortIdentity,)?
        }

        impl $name {
            pub(crate) fn content_size(&self) -> usize {
                $size
            }

            pub(crate) fn serialize_content(
                &self,
                b: &mut [u8],
            ) -> Result<(), crate::datastructures::WireFormatError> {
                b[..$size].fill(0);
                self.$time.write(b);
                $(b[10..20].copy_from_slice(&self.$identity.to_bytes());)?
                Ok(())
            }

            pub(crate) fn deserialize_content(
                b: &[u8],
            ) -> Result<Self, crate::datastructures::WireFormatError> {
                let b = b
                    .get(..$size)
                    .ok_or(crate::datastructures::WireFormatError::BufferTooShort)?;
                Ok($name {
                    $time: crate::datastructures::common::WireTimestamp::from_bytes(b)?,
                    $($identity: crate::datastructures::common::PortIdentity::from_bytes(
                        b[10..20].try_into().unwrap(),
                    ),)?
                })
            }
        }
    };
}

/// A message that document 01 leaves to the host: none may reach the port in a comparison.
macro_rules! left_out {
    ($name:ident $(, $header:ident)?) => {
        impl $name {
            pub(crate) fn content_size(&self) -> usize {
                panic!("outside the domain: a message of the host")
            }

            pub(crate) fn serialize_content(
                &self,
                _: &mut [u8],
            ) -> Result<(), crate::datastructures::WireFormatError> {
                panic!("outside the domain: a message of the host")
            }

            pub(crate) fn deserialize_content(
                $(_: $header,)?
                _: &[u8],
            ) -> Result<Self, crate::datastructures::WireFormatError> {
                panic!("outside the domain: a message of the host")
            }
        }
    };
}

pub(crate) use {body, left_out};
