//! The questions that a call may answer no to.

/// The first question that was answered no. A refused call has written nothing.
#[derive(Clone, Copy, Debug, PartialEq, Eq, Hash)]
#[repr(u32)]
pub enum Refusal {
    /// 1: are width and height from 1 to 4,096 (from 2 where edges are interpolated)?
    ImageSize = 1,
    /// 2: are channels per pixel from 1 to 16?
    Channels = 2,
    /// 3: are vertex and face slices multiples of 3 (of 2), for at most 1,048,576 of each? A table with one number a face has
    /// at most as many, and need not be a multiple of anything. Outline edges go by twos, at most 3,145,728 of them.
    MeshSize = 3,
    /// 4: has every other buffer the exact length?
    BufferLength = 4,
    /// 5: is first number plus face count at most 1,048,576?
    FaceNumbers = 5,
    /// 6: is every vertex number in every face below the vertex count?
    VertexNumber = 6,
    /// 7: is every map entry below the face count, or empty?
    MapEntry = 7,
    /// 8: has every projection that the pass needs an answer?
    Projection = 8,
    /// 9: has every point that the pass needs weights?
    Weights = 9,
    /// 10: is every vertex number in every outline edge below the vertex count? Asked after 6.
    EdgeVertex = 10,
}

impl Refusal {
    const ALL: [Refusal; 10] = [
        Refusal::ImageSize,
        Refusal::Channels,
        Refusal::MeshSize,
        Refusal::BufferLength,
        Refusal::FaceNumbers,
        Refusal::VertexNumber,
        Refusal::MapEntry,
        Refusal::Projection,
        Refusal::Weights,
        Refusal::EdgeVertex,
    ];

    /// The question's number, which is the code that C sees.
    pub fn code(self) -> u32 {
        self as u32
    }

    /// The question itself, in a few words.
    pub fn question(self) -> &'static str {
        match self {
            Refusal::ImageSize => "are width and height from 1 to 4096 (from 2 for edges)?",
            Refusal::Channels => "are channels per pixel from 1 to 16?",
            Refusal::MeshSize => {
                "are slices whole, for at most 1048576 vertices, as many faces and 3145728 edges?"
            }
            Refusal::BufferLength => "has every other buffer the exact length?",
            Refusal::FaceNumbers => "is first number plus face count at most 1048576?",
            Refusal::VertexNumber => "is every vertex number below the vertex count?",
            Refusal::MapEntry => "is every map entry below the face count, or empty?",
            Refusal::Projection => "has every projection that is needed an answer?",
            Refusal::Weights => "has every point that is needed weights?",
            Refusal::EdgeVertex => "is every vertex number of an edge below the vertex count?",
        }
    }

    /// What a code says: accepted, or the question that was answered no.
    pub fn of_code(code: u32) -> Result<(), Refusal> {
        match code {
            0 => Ok(()),
            1..=10 => Err(Refusal::ALL[code as usize - 1]),
            _ => unreachable!("no call answers {code}"),
        }
    }
}

impl std::fmt::Display for Refusal {
    fn fmt(&self, f: &mut std::fmt::Formatter<'_>) -> std::fmt::Result {
        write!(
            f,
            "refused at question {}: {}",
            self.code(),
            self.question()
        )
    }
}

impl std::error::Error for Refusal {}

#[cfg(test)]
mod tests {
    use super::Refusal;

    #[test]
    fn codes_and_refusals_match() {
        assert_eq!(Refusal::of_code(0), Ok(()));
        for code in 1..=10 {
            let refusal = Refusal::of_code(code).unwrap_err();
            assert_eq!(refusal.code(), code);
            assert!(refusal.to_string().contains(refusal.question()));
        }
    }
}
