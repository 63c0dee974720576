//! Stand-in written for these comparisons: statime's own file was not supplied.
//! No message of the comparisons has a TLV: one that does panics as outside the domain.

use crate::datastructures::WireFormatError;

#[derive(Debug, Clone, Copy, PartialEq, Eq)]
pub enum TlvType {
    PathTrace,
}

impl TlvType {
    pub(crate) fn announce_propagate(self) -> bool {
        false
    }
}

#[derive(Debug, Clone, PartialEq, Eq)]
pub struct Tlv<'a> {
    pub tlv_type: TlvType,
    pub value: &'a [u8],
}

impl Tlv<'_> {
    pub(crate) fn wire_size(&self) -> usize {
        4 + self.value.len()
    }
}

#[derive(Debug, Default, Clone, PartialEq, Eq)]
pub struct TlvSet<'a>(core::marker::PhantomData<&'a [u8]>);

impl<'a> TlvSet<'a> {
    pub(crate) fn wire_size(&self) -> usize {
        0
    }

    pub(crate) fn serialize(&self, _buffer: &mut [u8]) -> Result<(), WireFormatError> {
        Ok(())
    }

    pub(crate) fn deserialize(buffer: &'a [u8]) -> Result<Self, WireFormatError> {
        assert!(
            buffer.is_empty(),
            "outside the domain: bytes behind the body"
        );
        Ok(TlvSet::default())
    }
}

#[derive(Debug, Clone)]
pub struct TlvSetIterator<'a>(core::marker::PhantomData<&'a [u8]>);

impl TlvSetIterator<'_> {
    pub(crate) fn empty() -> Self {
        TlvSetIterator(core::marker::PhantomData)
    }
}

impl<'a> Iterator for TlvSetIterator<'a> {
    type Item = Tlv<'a>;

    fn next(&mut self) -> Option<Tlv<'a>> {
        None
    }
}

pub struct TlvSetBuilder<'a>(core::marker::PhantomData<&'a [u8]>);

impl<'a> TlvSetBuilder<'a> {
    pub(crate) fn new(_buffer: &'a mut [u8]) -> Self {
        TlvSetBuilder(core::marker::PhantomData)
    }

    pub(crate) fn add(&mut self, _tlv: Tlv<'_>) -> Result<(), WireFormatError> {
        panic!("outside the domain: announce")
    }

    pub(crate) fn build(self) -> TlvSet<'a> {
        TlvSet::default()
    }
}
