//! Functions: those of guests, as the host calls them, and those of the host, as guests call them.

use crate::call::{Callee, HostFn};
use crate::caller::Caller;
use crate::context::{AsContext, AsContextMut};
use crate::engine::Config;
use crate::error::Error;
use crate::handle::Owner;
use crate::instance;
use crate::library::{FuncType, RawRef, RawVal, ValType};
use crate::module::Module;
use crate::store::Store;
use crate::values::{HostResults, Val, WasmTy, WasmValues, canonical, tuples};
use std::fmt;
use std::marker::PhantomData;
use std::sync::Arc;

/// A function of an instance, or one of the host.
#[derive(Clone)]
pub struct Func {
    pub(crate) owner: Arc<Owner>,
    pub(crate) function: u32,
}

/// A function of which the types of parameters and results are known ([`WasmValues`]).
pub struct TypedFunc<P, R> {
    func: Func,
    types: PhantomData<fn(P) -> R>,
}

impl<P, R> fmt::Debug for TypedFunc<P, R> {
    fn fmt(&self, f: &mut fmt::Formatter<'_>) -> fmt::Result {
        write!(f, "TypedFunc({:?})", self.func)
    }
}

impl<P, R> Clone for TypedFunc<P, R> {
    fn clone(&self) -> Self {
        Self { func: self.func.clone(), types: PhantomData }
    }
}

impl Func {
    /// A function of the host, made of a closure. [`Linker::func_wrap`](crate::Linker::func_wrap) says which closures.
    pub fn wrap<T: 'static, P, R>(mut context: impl AsContextMut<Data = T>, function: impl IntoFunc<T, P, R>) -> Func {
        let store = context.as_context_mut().store;
        let (ty, call) = function.into_func();
        of_host(store, ty, call)
    }

    /// A function of the host of any type. The closure is given the arguments, and writes the results.
    ///
    /// A result that isn't of its type stops the guest.
    pub fn new<T: 'static>(
        mut context: impl AsContextMut<Data = T>,
        ty: FuncType,
        function: impl Fn(Caller<'_, T>, &[Val], &mut [Val]) -> Result<(), Error> + Send + Sync + 'static,
    ) -> Func {
        of_host(context.as_context_mut().store, ty.clone(), untyped(ty, function))
    }

    /// The function as a value: a reference. Its instance is kept as long as the store then.
    pub fn to_val(&self, mut context: impl AsContextMut) -> Val {
        let inner = &mut context.as_context_mut().store.inner;
        let (_, entity) = inner.instance(&self.owner);
        let reference = RawRef::from(entity.first + self.function);
        inner.pin(&self.owner);
        Val::new(ValType::FuncRef, reference.into())
    }

    /// The function of a reference, unless it is null.
    pub fn from_val(context: impl AsContext, value: Val) -> Option<Func> {
        let inner = &context.as_context().store.inner;
        let (instance, function) = inner.references.find(RawRef::from(value.raw()).into())?;
        let entity = &inner.instances[instance];
        let is_function = value.ty() == ValType::FuncRef && (function as usize) < entity.module.functions.len();
        Some(Func { owner: entity.owner.upgrade().filter(|_| is_function)?, function })
    }

    /// Its number in its module: if its instance imports it from another one, in the module of that one.
    pub fn index(&self, context: impl AsContext) -> u32 {
        let context = context.as_context();
        let (instance, _) = context.store.inner.instance(&self.owner);
        match context.store.callee(instance, self.function) {
            Callee::Guest { function, .. } => function,
            Callee::Host { .. } => self.function,
        }
    }

    /// Its type.
    pub fn ty(&self, context: impl AsContext) -> FuncType {
        let (_, entity) = context.as_context().store.inner.instance(&self.owner);
        entity.module.type_of(self.function).clone()
    }

    /// Calls it.
    ///
    /// # Errors
    ///
    /// If the arguments aren't of its type, and if the guest stops, as [`TypedFunc::call`] says.
    pub fn call(&self, mut context: impl AsContextMut, args: &[Val]) -> Result<Vec<Val>, Error> {
        let ty = self.checked(&mut context, args)?;
        let (write, read) =
            (|values: &mut [RawVal]| Self::write(args, values), |values: &[RawVal]| Self::read(&ty, values));
        context.as_context_mut().store.call(&self.owner, self.function, write, read)
    }

    /// The type, if these can be its arguments.
    pub(crate) fn checked(&self, context: &mut impl AsContextMut, args: &[Val]) -> Result<FuncType, Error> {
        let ty = self.ty(&*context);
        if !args.iter().map(Val::ty).eq(ty.params().iter().copied()) {
            return Err(Error::misused("the arguments aren't those of the function's type"));
        }
        if ty.results().contains(&ValType::FuncRef) {
            context.as_context_mut().store.inner.pin(&self.owner);
        }
        Ok(ty)
    }

    pub(crate) fn write(args: &[Val], values: &mut [RawVal]) {
        values.iter_mut().zip(args).for_each(|(value, arg)| *value = canonical(*arg));
    }

    pub(crate) fn read(ty: &FuncType, values: &[RawVal]) -> Vec<Val> {
        ty.results().iter().zip(values).map(|(ty, value)| Val::new(*ty, *value)).collect()
    }

    /// The same function, with types that are known. [`WasmValues`] says which ones they may be.
    ///
    /// # Errors
    ///
    /// If it has other ones. The message has the types of the function, and those that were asked for.
    pub fn typed<P: WasmValues, R: WasmValues>(&self, context: impl AsContext) -> Result<TypedFunc<P, R>, Error> {
        let ty = self.ty(context);
        if ty.params() != P::TYPES || ty.results() != R::TYPES {
            let ((params, results), (wanted, given)) = (ty.params_results(), (P::TYPES, R::TYPES));
            let found = format!("the function takes {params:?} and gives {results:?}");
            return Err(Error::Misused(format!(
                "{found}, and was asked for as one that takes {wanted:?} and gives {given:?}"
            )));
        }
        Ok(TypedFunc { func: self.clone(), types: PhantomData })
    }
}

impl<P: WasmValues, R: WasmValues> TypedFunc<P, R> {
    /// Calls it.
    ///
    /// # Errors
    ///
    /// If the guest stops: an [`Error`] says why. The store and its instances can be used after that, as the guest has
    /// left them.
    ///
    /// Of a guest that is out of fuel ([`TrapCode::OutOfFuel`](crate::TrapCode::OutOfFuel)), [`Store::get_fuel`] says
    /// what is left.
    pub fn call(&self, mut context: impl AsContextMut, params: P) -> Result<R, Error> {
        let Func { owner, function } = &self.func;
        context.as_context_mut().store.call(owner, *function, |values| params.write(values), R::read)
    }

    /// The function without its types.
    pub fn func(&self) -> &Func {
        &self.func
    }
}

impl fmt::Debug for Func {
    fn fmt(&self, f: &mut fmt::Formatter<'_>) -> fmt::Result {
        write!(f, "Func({:?}, {})", self.owner.kept, self.function)
    }
}

/// A function of the host with its type.
pub(crate) struct Host<T> {
    pub ty: FuncType,
    pub call: Arc<HostFn<T>>,
}

impl<T> Host<T> {
    pub fn callee(&self) -> Callee<T> {
        let slots = usize::from(self.ty.len_params().max(self.ty.len_results()));
        Callee::Host { call: self.call.clone(), slots }
    }
}

/// An instance of which a function of the host is the only function.
fn of_host<T>(store: &mut Store<T>, ty: FuncType, call: Arc<HostFn<T>>) -> Func {
    let module = Arc::new(Module::of_host(&ty, *Config::default().consume_fuel(store.inner.engine.is_metered())));
    let callee = Host { ty, call }.callee();
    let owner = instance::insert(store, module, vec![callee], vec![]).expect("there are too many functions");
    Func { owner, function: 0 }
}

/// The function that a closure on values of any type makes.
pub(crate) fn untyped<T: 'static>(
    ty: FuncType,
    function: impl Fn(Caller<'_, T>, &[Val], &mut [Val]) -> Result<(), Error> + Send + Sync + 'static,
) -> Arc<HostFn<T>> {
    Arc::new(move |store, instance, base| {
        let (params, results) = ty.params_results();
        let values = store.inner.values(base);
        let args: Vec<_> = params.iter().zip(values).map(|(ty, value)| Val::new(*ty, *value)).collect();
        let mut given: Vec<_> = results.iter().map(|ty| Val::new(*ty, RawVal::default())).collect();
        function(Caller { store: &mut *store, instance }, &args, &mut given)?;
        if !given.iter().map(Val::ty).eq(results.iter().copied()) {
            return Err(Error::new("a function of the host gives results of other types"));
        }
        store.inner.values(base).iter_mut().zip(given).for_each(|(value, it)| *value = canonical(it));
        Ok(())
    })
}

/// A closure that can be a function of the host: of up to twelve values, before which there may be a [`Caller`].
pub trait IntoFunc<T, P, R>: Send + Sync + 'static {
    /// The type of the function, and the function.
    #[doc(hidden)]
    #[allow(private_interfaces)]
    fn into_func(self) -> (FuncType, Arc<HostFn<T>>);
}

macro_rules! closures {
    ($($ty:ident)*) => {
        #[allow(non_snake_case, private_interfaces)]
        impl<T, Z, R, $($ty),*> IntoFunc<T, ($($ty,)*), R> for Z
        where
            Z: Fn($($ty),*) -> R + Send + Sync + 'static,
            R: HostResults,
            $($ty: WasmTy,)*
        {
            fn into_func(self) -> (FuncType, Arc<HostFn<T>>) {
                (move |_: Caller<'_, T>, $($ty: $ty),*| self($($ty),*)).into_func()
            }
        }

        #[allow(non_snake_case, private_interfaces)]
        impl<T, Z, R, $($ty),*> IntoFunc<T, (Caller<'_, T>, $($ty,)*), R> for Z
        where
            Z: Fn(Caller<'_, T>, $($ty),*) -> R + Send + Sync + 'static,
            R: HostResults,
            $($ty: WasmTy,)*
        {
            fn into_func(self) -> (FuncType, Arc<HostFn<T>>) {
                let (params, results) = (<($($ty,)*)>::TYPES, R::Values::TYPES);
                let ty = FuncType::new(params.iter().copied(), results.iter().copied());
                let call = move |store: &mut Store<T>, instance, base| {
                    let ($($ty,)*) = WasmValues::read(store.inner.values(base));
                    let results = self(Caller { store: &mut *store, instance }, $($ty),*).into_result()?;
                    results.write(store.inner.values(base));
                    Ok(())
                };
                (ty.expect("a type of at most 24 values"), Arc::new(call))
            }
        }
    };
}
tuples!(closures);
