package cf.store;

/** What etcd means by its codes. Written by clients/engines/generate: change clients/engines/etcd.codes. */
final class EtcdCodes {
    private EtcdCodes() {}

    /** Whether it refuses something for good, by its code and text. */
    static boolean isRefused(long code, String text) {
        return code == 3 || code == 8 && text.contains("larger than max") || code == 9;
    }
}
