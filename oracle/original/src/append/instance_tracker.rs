/// Sets and gets the instances of a tracker.
pub mod access {
    use super::*;

    pub fn set(tracker: &InstanceTracker, instances: Vec<(KeyHash, InstanceState)>) {
        let mut inner = tracker.inner.lock().unwrap_or_else(|e| e.into_inner());
        inner.handle_to_keyhash = instances.iter().map(|(key, s)| (s.handle, *key)).collect();
        inner.by_keyhash = instances.into_iter().collect();
    }

    pub fn each(tracker: &InstanceTracker, mut see: impl FnMut(&KeyHash, &InstanceState)) {
        let inner = tracker.inner.lock().unwrap_or_else(|e| e.into_inner());
        inner.by_keyhash.iter().for_each(|(key, s)| see(key, s));
    }

    /// Whether the map from handles is the inverse of the map from keys.
    pub fn maps_agree(tracker: &InstanceTracker) -> bool {
        let inner = tracker.inner.lock().unwrap_or_else(|e| e.into_inner());
        inner.by_keyhash.len() == inner.handle_to_keyhash.len()
            && inner
                .by_keyhash
                .iter()
                .all(|(key, s)| inner.handle_to_keyhash.get(&s.handle) == Some(key))
    }
}
