package cf.service;

import cf.internal.Text;

/** A stage can't be attached, since its {@link Scope} has ended. Nothing was changed. */
public final class ScopeEndedException extends IllegalStateException {
    private static final long serialVersionUID = 1;

    ScopeEndedException(String request, String scope) {
        super(Text.escape("nothing can be attached in \"" + scope + "\" of \"" + request + "\", which has ended"));
    }
}
