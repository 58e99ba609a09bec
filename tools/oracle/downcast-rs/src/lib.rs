//! A stand-in: objects that can be asked for their own type.

use std::any::Any;
use std::sync::Arc;

pub trait DowncastSync: Any + Send + Sync {
    fn as_any(&self) -> &dyn Any;
    fn into_any_arc(self: Arc<Self>) -> Arc<dyn Any + Send + Sync>;
}

impl<T: Any + Send + Sync> DowncastSync for T {
    fn as_any(&self) -> &dyn Any {
        self
    }
    fn into_any_arc(self: Arc<Self>) -> Arc<dyn Any + Send + Sync> {
        self
    }
}

#[macro_export]
macro_rules! impl_downcast {
    (sync $name:ident) => {
        impl dyn $name {
            pub fn downcast_ref<T: $name>(&self) -> Option<&T> {
                $crate::DowncastSync::as_any(self).downcast_ref::<T>()
            }
            pub fn downcast_arc<T: $name>(
                self: std::sync::Arc<Self>,
            ) -> Result<std::sync::Arc<T>, std::sync::Arc<dyn std::any::Any + Send + Sync>> {
                $crate::DowncastSync::into_any_arc(self).downcast::<T>()
            }
        }
    };
}
