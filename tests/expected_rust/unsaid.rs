#[logos(crate =)]
#[logos(error =)]
#[logos(extras =)]
enum Nothing {}
