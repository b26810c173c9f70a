package cf.testing;

import cf.store.Store;

/** A put that may be on its way for a while, and the transaction that it commits, or null. */
final class Coming {
    final Store.Put put;
    final ProcessTransaction commits;

    Coming(Store.Put put, ProcessTransaction commits) {
        this.put = put;
        this.commits = commits;
    }
}
