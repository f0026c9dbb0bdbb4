final class Journal {
  var entries = 0
  var errors = 0
}
actor Server {
  let journal = Journal()
  func serve() {
    journal.entries += 1
  }
  func current() -> Journal {
    return journal
  }
  func save() {
    let toSave = journal
    Task.detached { print(toSave.entries) }
  }
}
@main struct App {
  static func main() async {
    let server = Server()
    let serving = Task.detached { await server.serve() }
    let journal = await server.current()
    print(journal.entries, journal.errors)
    await serving.value
    await server.save()
  }
}
