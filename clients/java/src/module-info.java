/** Completable futures whose requests leave one proved history each. */
module cf.service {
    requires java.logging;
    requires transitive java.sql;
    requires static jdk.jfr;

    exports cf.service;
    exports cf.store;
    exports cf.testing;
}
