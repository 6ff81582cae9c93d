compile_error!("this stands in for serde, so that cargo needs no registry in rust/: test the feature from another folder");
