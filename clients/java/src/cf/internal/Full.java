package cf.internal;

/** What a RequestFullException is made of, which a program can't make. */
public final class Full {
    public final String text;

    /** Of a request or a flow of this name. */
    public Full(String name) {
        text = "\"" + Text.escape(name) + "\" has no place for the stage: a request may have 4,096";
    }
}
