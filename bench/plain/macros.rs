//! The macros of Rattle's library that the sources use. Those that allocate or write answer `Result`.

macro_rules! vec {
    (in $alloc:expr; $item:expr; $count:expr) => {{
        let _ = $alloc;
        Ok::<_, crate::prelude::AllocError>(crate::prelude::Vec(std::vec![$item; $count]))
    }};
    (in $alloc:expr; $($item:expr),*) => {{
        let _ = $alloc;
        Ok::<_, crate::prelude::AllocError>(crate::prelude::Vec(std::vec![$($item),*]))
    }};
}

macro_rules! format {
    (in $alloc:expr; $($words:tt)*) => {{
        let _ = $alloc;
        Ok::<_, crate::prelude::AllocError>(crate::prelude::String(std::format!($($words)*)))
    }};
}

macro_rules! assert {
    ($rt:expr; $holds:expr) => {
        assert!($rt; $holds, "")
    };
    ($rt:expr; $holds:expr, $($words:tt)*) => {
        if !$holds {
            std::panic!("{} isn't so {}", std::stringify!($holds), std::format!($($words)*));
        }
    };
}

macro_rules! assert_eq {
    ($rt:expr; $found:expr, $wanted:expr $(,)?) => {
        assert!($rt; $found == $wanted, "")
    };
    ($rt:expr; $found:expr, $wanted:expr, $($words:tt)*) => {
        assert!($rt; $found == $wanted, $($words)*)
    };
}

macro_rules! panic {
    ($rt:expr; $($words:tt)*) => {
        std::panic!($($words)*)
    };
}

macro_rules! println {
    ($rt:expr; $($words:tt)*) => {
        crate::standard::rt::written($rt, std::io::stdout(), std::format_args!($($words)*), "\n")
    };
}

macro_rules! eprintln {
    ($rt:expr; $($words:tt)*) => {
        crate::standard::rt::written($rt, std::io::stderr(), std::format_args!($($words)*), "\n")
    };
}

macro_rules! eprint {
    ($rt:expr; $($words:tt)*) => {
        crate::standard::rt::written($rt, std::io::stderr(), std::format_args!($($words)*), "")
    };
}
