package cf.store;

import java.util.Arrays;
import java.util.Collections;
import java.util.LinkedHashMap;
import java.util.List;
import java.util.Map;

/** An exception in a row of a store: a function threw it, or a caller failed a stage with it, in any process and language. */
public final class RemoteException extends RuntimeException {
    /** The kind where the process of a function is gone: the function may have run, and isn't run again. */
    public static final String ABANDONED = "Abandoned";

    private static final long serialVersionUID = 1;

    /** With a kind and a text. */
    private final String kind, text;
    private final transient List<Object> args;

    /** An exception of a kind, which in Python is the name of its class, that says this. */
    public RemoteException(String kind, String text) {
        this(kind, text, Arrays.asList((Object) text));
    }

    private RemoteException(String kind, String text, List<Object> args) {
        super(kind + ": " + text);
        this.kind = kind;
        this.text = text;
        this.args = args;
    }

    /** Its kind: the name of a class. */
    public String kind() {
        return kind;
    }

    /** Its text. */
    public String text() {
        return text;
    }

    /** Further values, in JSON's types. */
    public List<Object> args() {
        return args == null ? Collections.emptyList() : args;
    }

    /** Of any exception: the name of its class, and its message. */
    static RemoteException fromThrowable(Throwable thrown) {
        if (thrown instanceof RemoteException) {
            return (RemoteException) thrown;
        }
        String text = String.valueOf(thrown.getMessage());
        return new RemoteException(thrown.getClass().getSimpleName(), text, null);
    }

    static RemoteException fromMap(Object json) {
        if (!(json instanceof Map)) {
            throw new IllegalArgumentException("it is no exception");
        }
        Map<?, ?> said = (Map<?, ?>) json;
        @SuppressWarnings("unchecked")
        List<Object> args = (List<Object>) said.get("args");
        return new RemoteException(String.valueOf(said.get("error")), String.valueOf(said.get("text")), args);
    }

    Map<String, Object> toMap() {
        Map<String, Object> said = new LinkedHashMap<>();
        said.put("error", kind);
        said.put("text", text);
        if (args != null) {
            said.put("args", args);
        }
        return said;
    }
}
