//! A stand-in: the names of libwayland's types, of which no value is ever made.
#![allow(non_camel_case_types)]

pub mod common {
    #[derive(Debug)]
    pub enum wl_argument {}
    #[derive(Debug)]
    pub enum wl_interface {}
    #[derive(Debug)]
    pub enum wl_message {}
}
