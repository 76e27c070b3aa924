package emfstore.client;

import java.io.IOException;
import java.io.UncheckedIOException;
import java.nio.file.Path;
import java.util.HashMap;
import java.util.Map;
import org.eclipse.emf.common.util.URI;
import org.eclipse.emf.ecore.resource.Resource;
import org.eclipse.emf.ecore.resource.ResourceSet;

/**
 * Makes the resources of the URIs {@code emfstore:/FOLDER?checkout=SPEC} and {@code emfstore:/FOLDER?workspace=NUMBER}. All resources of one folder
 * share one {@link Store}, which is started by the first that is loaded and ended by {@link #close}.
 */
public final class StoreResourceFactory implements Resource.Factory, AutoCloseable {
    /** The scheme of the URIs. */
    public static final String SCHEME = "emfstore";

    private final Path program;
    private final Map<Path, Store> stores = new HashMap<>();

    /** Takes the program that {@link Store#Store(Path)} finds. */
    public StoreResourceFactory() {
        this(null);
    }

    /** Takes the program at a path. */
    public StoreResourceFactory(Path program) {
        this.program = program;
    }

    /** Lets a resource set make such resources. */
    public void register(ResourceSet set) {
        set.getResourceFactoryRegistry().getProtocolToFactoryMap().put(SCHEME, this);
    }

    @Override
    public StoreResource createResource(URI uri) {
        return new StoreResource(uri, this);
    }

    /** The store of a folder, started where it isn't yet, or where its program has ended. */
    synchronized Store store(Path folder) throws IOException {
        Store found = stores.get(folder);
        if (found == null || found.hasEnded()) {
            found = program == null ? new Store(folder) : new Store(program, folder);
            stores.put(folder, found);
        }
        return found;
    }

    /** Ends the programs. What was recorded stays in its workspaces. */
    @Override
    public synchronized void close() {
        stores.values().forEach(Store::close);
        stores.clear();
    }

    /** The URI of a workspace of the store in a folder. */
    public static URI uri(Path folder, int workspace) {
        return URI.createURI(SCHEME + ":" + folder.toAbsolutePath().toUri().getRawPath() + "?workspace=" + workspace);
    }

    /** The URI of a new workspace, of the version, branch or tag that the text names. */
    public static URI uri(Path folder, String spec) {
        return URI.createURI(SCHEME + ":" + folder.toAbsolutePath().toUri().getRawPath() + "?checkout=" + URI.encodeQuery(spec, true));
    }

    /** The folder that a URI names. */
    static Path folder(URI uri) {
        return Path.of(URI.decode(uri.path()));
    }

    /** The faults of a call as those of an input or output. */
    static IOException fault(RuntimeException fault) {
        return fault instanceof UncheckedIOException io ? io.getCause() : new IOException(fault.getMessage(), fault);
    }
}
