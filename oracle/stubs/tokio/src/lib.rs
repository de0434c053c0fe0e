pub mod task {
    stub_error::stub_errors!(JoinError);
}

pub mod time {
    pub mod error {
        stub_error::stub_errors!(Elapsed);
    }
}

pub mod sync {
    stub_error::stub_errors!(SetError<T>);

    pub mod watch {
        pub mod error {
            stub_error::stub_errors!(SendError<T>);
        }
    }

    pub mod mpsc {
        pub mod error {
            stub_error::stub_errors!(TryRecvError, SendError<T>);
        }
    }
}
