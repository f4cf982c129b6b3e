map zip.pk Zip zip_64.zip
