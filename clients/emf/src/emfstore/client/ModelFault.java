package emfstore.client;

import org.eclipse.emf.ecore.resource.Resource;

/** What a resource can't hold as the store has it, or holds otherwise than one would look for it. */
record ModelFault(String getMessage, String getLocation) implements Resource.Diagnostic {
    @Override
    public String getMessage() {
        return getMessage;
    }

    @Override
    public String getLocation() {
        return getLocation;
    }

    @Override
    public int getLine() {
        return 0;
    }

    @Override
    public int getColumn() {
        return 0;
    }
}
