// Upstream's properties of its tests, without places and ages.
#[derive(Clone, Debug, Default)]
pub struct TestProperties(bool, Hint);

impl Properties for TestProperties {
    fn with_phantom(self, phantom: bool) -> Self {
        TestProperties(phantom, self.1)
    }

    fn phantom(&self) -> Option<bool> {
        Some(self.0)
    }

    fn with_hint(self, hint: Hint) -> Self {
        TestProperties(self.0, hint)
    }

    fn hint(&self) -> Option<Hint> {
        Some(self.1)
    }

    fn with_location(self, _: Location) -> Self {
        self
    }

    fn location(&self) -> Option<Location> {
        None
    }

    fn with_age(self, _: Age) -> Self {
        self
    }

    fn age(&self) -> Option<Age> {
        None
    }
}
