//! Nothing. Cargo asks for the optional dependencies of the package that it builds, also where their features are off. So this takes the
//! place of each where `arraystring` is built without its features and without a network (`arraystring/.cargo/config.toml`).
