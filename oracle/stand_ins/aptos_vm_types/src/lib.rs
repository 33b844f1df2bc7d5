//! Stand-in for `aptos_vm_types`: the size of a group, by 01's text.

pub mod resolver {
    /// Members that have bytes, and the sum of their lengths plus 1 each.
    #[derive(Clone, Copy, Debug, PartialEq, Eq)]
    pub struct ResourceGroupSize {
        pub members: u32,
        pub sum: u32,
    }
}

pub mod resource_group_adapter {
    use super::resolver::ResourceGroupSize;
    use move_binary_format::errors::PartialVMError;

    /// At most 64 members of 1,048,576 bytes, so a word holds the sum.
    pub fn group_size_as_sum<T>(
        group: impl Iterator<Item = (T, usize)>,
    ) -> Result<ResourceGroupSize, PartialVMError> {
        let mut size = ResourceGroupSize { members: 0, sum: 0 };
        for (_, length) in group {
            size.members += 1;
            size.sum += u32::try_from(length).expect("a length is a word") + 1;
        }
        Ok(size)
    }
}
