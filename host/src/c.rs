//! How C declares what this binding has, so that a test can hold the header against it. No host needs it.

/// A type of the C interface.
pub trait Type {
    /// Its name.
    fn name() -> String;

    /// What a function takes that is given a pointer to it; of an array C tells the length too.
    fn given(constant: &str) -> String {
        format!("{constant}{} *", Self::name())
    }

    /// The type of a pointer to it.
    fn pointer() -> String {
        format!("{} *", Self::name())
    }

    /// All zeros, as it is initialised with every part of it.
    fn zeros() -> String {
        "0".to_string()
    }
}

macro_rules! plain {
    ($($rust:ty: $c:literal,)+) => {
        $(
            impl Type for $rust {
                fn name() -> String {
                    $c.to_string()
                }
            }
        )+
    };
}

plain! {
    bool: "bool",
    u8: "uint8_t",
    u16: "uint16_t",
    u32: "uint32_t",
    u64: "uint64_t",
    usize: "size_t",
}

impl<T: Type> Type for *const T {
    fn name() -> String {
        T::given("const ")
    }
}

impl<T: Type> Type for *mut T {
    fn name() -> String {
        T::given("")
    }
}

impl<T: Type, const LENGTH: usize> Type for [T; LENGTH] {
    fn name() -> String {
        format!("{}[{LENGTH}]", T::name())
    }

    fn given(constant: &str) -> String {
        format!("{constant}{}", Self::name())
    }

    fn pointer() -> String {
        format!("{} (*)[{LENGTH}]", T::name())
    }

    fn zeros() -> String {
        format!("{{{}}}", vec![T::zeros(); LENGTH].join(", "))
    }
}

/// A struct, with its fields in their order.
#[derive(Clone, Debug)]
pub struct Struct {
    /// Its name in C.
    pub name: String,
    /// How many octets it has.
    pub size: usize,
    /// All zeros, as it is initialised with every field.
    pub zeros: String,
    /// Its fields.
    pub fields: Vec<Field>,
}

/// A field of a struct.
#[derive(Clone, Debug)]
pub struct Field {
    /// Its name.
    pub name: &'static str,
    /// Where in the struct it begins.
    pub offset: usize,
    /// The type of a pointer to it.
    pub pointer: String,
}

impl Field {
    /// The field of this name and place.
    pub(crate) fn new<T: Type>(name: &'static str, offset: usize, _: &T) -> Field {
        Field {
            name,
            offset,
            pointer: T::pointer(),
        }
    }
}

/// A function.
#[derive(Clone, Debug)]
pub struct Function {
    /// Its name.
    pub name: &'static str,
    /// What it takes, in order: the name of each.
    pub words: Vec<&'static str>,
    /// Its declaration, by types alone.
    pub prototype: String,
}

impl Function {
    /// The function of this name that takes these words, each with its type.
    pub(crate) fn new<Result: Type>(name: &'static str, words: Vec<(&'static str, String)>) -> Function {
        let (words, types): (Vec<&'static str>, Vec<String>) = words.into_iter().unzip();
        let takes = if types.is_empty() {
            "void".to_string()
        } else {
            types.join(", ")
        };
        let prototype = format!("{} {name}({takes});", Result::name());
        Function { name, words, prototype }
    }
}
