package cf.store;

/** A refusal of a store, or of a row in it. */
public class StoreException extends RuntimeException {
    private static final long serialVersionUID = 1;

    /** With this message. */
    public StoreException(String message) {
        super(message);
    }

    /** With this message and cause. */
    public StoreException(String message, Throwable cause) {
        super(message, cause);
    }

    /**
     * The store didn't answer for a minute, or can't write now. What was asked may have been done or not. The same may be asked again.
     */
    public static final class Unknown extends StoreException {
        private static final long serialVersionUID = 1;

        /** With this message and cause. */
        public Unknown(String message, Throwable cause) {
            super(message, cause);
        }
    }

    /** The row of a request can't be gone on with. */
    public static class Broken extends StoreException {
        private static final long serialVersionUID = 1;

        /** With the request's name, the place of the word that is at fault, counted from 1, or 0 for its plan, and what is wrong. */
        public Broken(String request, int place, String why) {
            super("request \"" + request + "\", place " + place + ": " + why);
        }
    }

    /** The store has no request of this name, or not any more. */
    public static final class Gone extends Broken {
        private static final long serialVersionUID = 1;

        /** With the request's name. */
        public Gone(String request) {
            super(request, 0, "the store has no such request");
        }
    }
}
