// Stand-in, ours, for starlark's and anyhow's errors: one box each, as there. The wording is the published bodies' own.

pub type Result<T> = std::result::Result<T, Error>;

#[derive(Debug)]
pub struct Error(Box<ErrorKind>);

#[derive(Debug)]
pub enum ErrorKind {
    Function(anyhow::Error),
    Value(anyhow::Error),
    Internal(anyhow::Error),
    Other(anyhow::Error),
}

impl Error {
    #[cold]
    pub fn new_kind(kind: ErrorKind) -> Self {
        Error(Box::new(kind))
    }

    pub fn kind(&self) -> &ErrorKind {
        &self.0
    }

    #[cold]
    pub fn into_anyhow(self) -> anyhow::Error {
        anyhow::Error::new(self)
    }
}

impl From<anyhow::Error> for Error {
    #[cold]
    fn from(e: anyhow::Error) -> Self {
        match e.downcast::<Error>() {
            Ok(e) => e,
            Err(e) => Error::new_kind(ErrorKind::Other(e)),
        }
    }
}

// What the original says of an operation that a value has not.
#[cold]
pub fn unsupported(operation: &str) -> Error {
    let text = format!("Operation `{operation}` not supported");
    Error::new_kind(ErrorKind::Value(anyhow::Error::new(text)))
}

pub mod anyhow {
    use std::any::Any;
    use std::fmt::Debug;

    pub type Result<T> = std::result::Result<T, Error>;

    #[derive(Debug)]
    pub struct Error(Box<dyn Any + Send + Sync>);

    impl Error {
        #[cold]
        pub fn new<E: Any + Debug + Send + Sync>(e: E) -> Self {
            Error(Box::new(e))
        }

        pub fn downcast_ref<E: Any>(&self) -> Option<&E> {
            self.0.downcast_ref()
        }

        pub fn downcast<E: Any>(self) -> std::result::Result<E, Self> {
            self.0.downcast().map(|e| *e).map_err(Error)
        }
    }
}

#[macro_export]
macro_rules! error_of_kind {
    ($kind:ident, $($words:tt)*) => {
        $crate::Error::new_kind($crate::ErrorKind::$kind(
            $crate::standin::errors::anyhow::Error::new(format!($($words)*)),
        ))
    };
}

#[macro_export]
macro_rules! function_error {
    ($($words:tt)*) => { $crate::error_of_kind!(Function, $($words)*) };
}

#[macro_export]
macro_rules! value_error {
    ($($words:tt)*) => { $crate::error_of_kind!(Value, $($words)*) };
}

#[macro_export]
macro_rules! internal_error {
    ($($words:tt)*) => { $crate::error_of_kind!(Internal, $($words)*) };
}

#[macro_export]
macro_rules! other_error {
    ($($words:tt)*) => { $crate::error_of_kind!(Other, $($words)*) };
}
