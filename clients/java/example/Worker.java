import cf.store.Functions;
import cf.store.JdbcStore;
import cf.store.StoreService;
import java.sql.Connection;
import java.sql.PreparedStatement;
import java.sql.SQLException;
import java.util.List;

public class Worker {
    static Object pay(Connection db, List<Object> args) throws SQLException {
        try (PreparedStatement insert = db.prepareStatement("insert into payment (cents) values (?)")) {
            insert.setLong(1, (Long) args.get(0));
            insert.executeUpdate(); // it is committed with the stage's end, or not at all
        }
        return "paid " + args.get(0);
    }

    public static void main(String[] args) throws Exception {
        JdbcStore store = JdbcStore.open(args[0]);
        if (args.length > 1) { // a web server, say: it has no functions
            try (StoreService service = new StoreService(store, new Functions().elsewhere("pay", 1))) {
                System.out.println(service.request(args[1]).supply("pay", 4900).again(3).get());
            }
            return;
        }
        Functions functions = new Functions().transactional("pay", 1, Worker::pay);
        StoreService worker = StoreService.builder(store, functions).threads(8).takesAll(true).build();
        Runtime.getRuntime().addShutdownHook(new Thread(worker::close)); // waits for the functions that run
        Thread.currentThread().join(); // the service's threads are daemons
    }
}
