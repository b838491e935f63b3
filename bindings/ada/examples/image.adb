--  A log that outlives a restart: the heap is saved as an image in a file,
--  and loaded again, with another k. Ids stay the same in the loaded heap.
with Ada.Streams.Stream_IO;
with Ada.Text_IO;     use Ada.Text_IO;
with Interfaces;      use Interfaces;
with Interfaces.C;    use Interfaces.C;
with Norphuen;        use Norphuen;
with Norphuen.Images; use Norphuen.Images;

procedure Image is
   package Files renames Ada.Streams.Stream_IO;

   Stopped : constant Object_Id := 60_002;

   H    : Norphuen.Images.Heap;
   N    : Needed;
   File : Files.File_Type;

   procedure Show (What : String; Result : Code) is
   begin
      Put_Line (What & ":" & Result'Image);
   end Show;

   procedure Add (Id : Object_Id; Text : String) is
      Data : Bytes (1 .. Text'Length)
      with Import, Address => Text'Address;
   begin
      Show ("make", Nph_Make (H, Id, Data'Length));
      Show ("write", Nph_Write (H, Id, 0, Data, Data'Length));
   end Add;

   procedure Print (Id : Object_Id) is
      Length : Unsigned_32 := 0;
   begin
      Show ("length", Nph_Length (H, Id, Length));
      declare
         Text : String (1 .. Natural (Length));
         Data : Bytes (1 .. Text'Length)
         with Import, Address => Text'Address;
      begin
         Show ("read", Nph_Read (H, Id, 0, Data, Data'Length));
         Put_Line (Id'Image & " " & Text);
      end;
   end Print;

   --  The image of the heap.
   function Saved return Bytes is
      Count : Unsigned_64 := 0;
   begin
      Show ("bytes", Nph_Image_Bytes (H, Count));
      return Data : Bytes (1 .. size_t (Count)) := (others => 0) do
         Show ("save", Nph_Save (H, Data, Data'Length, Count));
      end return;
   end Saved;

   --  Loads Count bytes of an image, and prints where they stop being one.
   procedure Load (What : String; Data : Bytes; Count : size_t; K : Unsigned_32)
   is
      Offset : Unsigned_64 := 0;
   begin
      Show (What, Nph_Load (H, Data, Count, K, Offset));
      Put_Line (" at" & Offset'Image);
   end Load;

begin
   Show ("make", Nph_Make (H, Stopped, 8));
   Show ("needed", Norphuen.Images.Nph_Bytes_Needed (8, 512, 2, 100, N));
   Put_Line (N.Total'Image & " in" & N.Blocks'Image);
   Show ("open", Nph_Open (H, 8, 512, 2, 100));
   Add (60_000, "started");
   Add (60_001, "low battery");
   Add (Stopped, "stopped");
   Show ("make again", Nph_Make (H, Stopped, 8));
   Files.Create (File);
   Bytes'Write (Files.Stream (File), Saved);
   Nph_Close (H);
   Files.Reset (File, Files.In_File);
   declare
      Data : Bytes (1 .. size_t (Files.Size (File)));
   begin
      Bytes'Read (Files.Stream (File), Data);
      Put_Line (Data'Length'Image & " bytes");
      Load ("k = 65", Data, Data'Length, 65);
      Load ("no bytes", Data, 0, 1);
      Load ("a byte less", Data, Data'Length - 1, 1);
      Load ("load", Data, Data'Length, 64);
      Print (60_001);
      Put_Line ("saved again the same: " & Boolean'Image (Saved = Data));
      Show ("free", Nph_Free (H, Stopped));
      Show ("free", Nph_Free (H, Stopped));
   end;
   Nph_Close (H);
   Files.Close (File);
end Image;
