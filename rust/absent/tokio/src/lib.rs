compile_error!("this stands in for tokio, so that cargo needs no registry in rust/: test the feature from another folder");
