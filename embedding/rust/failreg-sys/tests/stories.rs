//! What nodes answer to a program that calls the library for C, told in stories: tables of calls
//! and looks, each beside what it answers in print.

mod stories {
    mod calls;
    mod faults;
    mod messages;
    mod node;
    mod orders;
    mod rights;
    mod settings;
    mod stage;
    mod versions;
}
