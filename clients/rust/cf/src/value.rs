//! What functions are called with and give, whatever its type.
use crate::core::Core;
use crate::error::Error;
use std::any::{type_name, Any};
use std::future::Future;
use std::pin::Pin;
use std::sync::Arc;

/// A value of any type. Numbers and the like are kept in place, and take no memory of their own.
#[derive(Clone)]
pub(crate) enum Val {
    Nil,
    Small(Small),
    Shared(Arc<dyn SharedValue>),
}

macro_rules! small {
    ($($kind:ident $type:ty),*) => {
        /// A value that is copied as it is.
        #[derive(Clone, Copy)]
        pub(crate) enum Small {
            $($kind($type),)*
        }

        impl Small {
            #[inline]
            fn of(any: &dyn Any) -> Option<Small> {
                $(
                    if let Some(small) = any.downcast_ref::<$type>() {
                        return Some(Small::$kind(*small));
                    }
                )*
                None
            }

            #[inline]
            fn any(&self) -> &dyn Any {
                match self {
                    $(Small::$kind(small) => small,)*
                }
            }

            /// The value, if it is of this type.
            #[inline]
            fn get<T: 'static>(&self) -> Option<&T> {
                let mut found = None;
                $(
                    // Which type it is asked for is known as this is compiled, so one of these is left.
                    if let Small::$kind(small) = self {
                        found = (small as &dyn Any).downcast_ref();
                    }
                )*
                found
            }

            fn shared(self) -> Arc<dyn Any + Send + Sync> {
                match self {
                    $(Small::$kind(small) => Arc::new(small),)*
                }
            }

            fn type_name(&self) -> &'static str {
                match self {
                    $(Small::$kind(_) => stringify!($type),)*
                }
            }
        }
    };
}

impl Val {
    #[inline]
    pub(crate) fn new<T: Send + Sync + 'static>(value: T) -> Val {
        let any: &dyn Any = &value;
        if any.is::<()>() {
            return Val::Nil;
        }
        match Small::of(any) {
            Some(small) => Val::Small(small),
            None => Val::Shared(Arc::new(value)),
        }
    }

    #[inline]
    pub(crate) fn as_any(&self) -> &dyn Any {
        match self {
            Val::Nil => &(),
            Val::Small(small) => small.any(),
            Val::Shared(value) => (**value).as_any(),
        }
    }

    fn into_shared(self) -> Arc<dyn Any + Send + Sync> {
        match self {
            Val::Nil => Arc::new(()),
            Val::Small(small) => small.shared(),
            Val::Shared(value) => value.into_shared(),
        }
    }

    /// The name of its type.
    pub(crate) fn type_name(&self) -> &'static str {
        match self {
            Val::Nil => "()",
            Val::Small(small) => small.type_name(),
            Val::Shared(value) => (**value).type_name(),
        }
    }
}

/// A value of any type, which knows the type's name.
pub(crate) trait SharedValue: Send + Sync {
    fn as_any(&self) -> &dyn Any;
    fn into_shared(self: Arc<Self>) -> Arc<dyn Any + Send + Sync>;
    fn type_name(&self) -> &'static str;
}

impl<T: Send + Sync + 'static> SharedValue for T {
    #[inline]
    fn as_any(&self) -> &dyn Any {
        self
    }

    fn into_shared(self: Arc<T>) -> Arc<dyn Any + Send + Sync> {
        self
    }

    fn type_name(&self) -> &'static str {
        type_name::<T>()
    }
}

small!(Bool bool, Char char, I8 i8, U8 u8, I16 i16, U16 u16, I32 i32, U32 u32, I64 i64, U64 u64, Isize isize, Usize usize, F32 f32, F64 f64);

/// What a function is called with.
pub(crate) enum CallArgs {
    Nothing,
    One(Val),
    Two(Val, Val),
    Got(Result<Val, Error>),
}

/// What a function gave.
pub(crate) enum Returned {
    Value(Val),
    Error(Error),
    /// A stage, of this request or another, whose outcome is taken.
    Stage(Arc<Core>, u16),
    /// What this will give, once it is ready.
    Later(StageResultFuture),
}

pub(crate) type StageResultFuture = Pin<Box<dyn Future<Output = Returned> + Send>>;

/// A stage's function. What it is called with stays with the worker, for whom the next stage may be called with the same.
pub(crate) type StageFn = Box<dyn FnOnce(&CallArgs) -> Returned + Send>;

impl Returned {
    #[inline]
    pub(crate) fn from_value<U: Send + Sync + 'static>(value: U) -> Returned {
        Returned::Value(Val::new(value))
    }

    pub(crate) fn from_result<U: Send + Sync + 'static>(result: Result<U, Error>) -> Returned {
        match result {
            Ok(value) => Returned::from_value(value),
            Err(error) => Returned::Error(error),
        }
    }
}

/// The value of a stage, whose type the stage's own type says.
#[inline]
pub(crate) fn downcast_ref<T: 'static>(value: &Val) -> &T {
    let found = match value {
        Val::Small(small) => small.get(),
        value => value.as_any().downcast_ref(),
    };
    found.expect("a stage's value is of its type")
}

pub(crate) fn downcast_arc<T: Send + Sync + 'static>(value: Val) -> Arc<T> {
    value.into_shared().downcast().unwrap_or_else(|_| unreachable!("a stage's value is of its type"))
}

impl CallArgs {
    #[inline]
    pub(crate) fn one<T: 'static>(&self) -> &T {
        match self {
            CallArgs::One(value) | CallArgs::Got(Ok(value)) => downcast_ref(value),
            _ => unreachable!("the stage's form has one value"),
        }
    }

    pub(crate) fn arc<T: Send + Sync + 'static>(&self) -> Arc<T> {
        match self {
            CallArgs::One(value) => downcast_arc(value.clone()),
            _ => unreachable!("the stage's form has one value"),
        }
    }

    pub(crate) fn two<T: 'static, U: 'static>(&self) -> (&T, &U) {
        match self {
            CallArgs::Two(first, second) => (downcast_ref(first), downcast_ref(second)),
            _ => unreachable!("the stage's form has two values"),
        }
    }

    pub(crate) fn outcome(&self) -> Result<&Val, &Error> {
        match self {
            CallArgs::Got(got) => got.as_ref(),
            _ => unreachable!("the stage's form has an outcome"),
        }
    }
}
